package patch

import (
	"go/ast"
	"regexp"
	"strings"
)

// raceRules: the hooks need no C library to be there, and the end of a program returns. The imports are those of gorec's files too.
var raceRules = []rule{
	{in: anywhere, old: `import \(\n\t"internal/abi"\n\t"unsafe"\n\)`,
		new: "import (\n\t\"internal/abi\"; \"runtime/internal/atomic\"\n\t\"unsafe\"\n)"},
	{in: "raceinit", old: `\n\tif !iscgo[^{\n]*\{\n\t\tthrow\([^\n]*\)\n\t\}\n`, new: "\n\n\n\n"},
	{in: "raceinit", old: `, abi\.FuncPCABI0\(racecallbackthunk\), 0\)`, new: `, 0, 0)`},
	{in: "racefini", old: `lock\(&raceFiniLock\)`, new: ``},
	{in: "racefini", old: `entersyscall\(\)`, new: ``, from: 21},
	{in: "racefini", old: `osPreemptExtEnter\(getg\(\)\.m\)`, new: ``},
	// gorec finds the calls by frame pointers
	{in: "racewriterangepc", old: `racefunc(enter\(callpc\)|exit\(\))`, new: ``, count: 2},
	{in: "racereadrangepc", old: `racefunc(enter\(callpc\)|exit\(\))`, new: ``, count: 2},
}

var (
	racecall    = regexp.MustCompile(`racecall\(&__tsan_(\w+), `)
	object      = regexp.MustCompile(`(?m)^(//go:cgo_import_static __tsan_\w+|//go:linkname __tsan_\w+ __tsan_\w+|var __tsan_\w+ byte)$`)
	declaration = regexp.MustCompile(`(?m)^(//go:noescape\n)?func (\w+)\([^\n]*[^\n{}]$`)
)

// unused are functions in assembly that nobody calls where there is no object.
var unused = []string{"racecall", "racecallbackthunk", "racefuncenterfp"}

// patchRace turns race.go's calls of the race detector's object into calls of gorec's functions, rec_NAME, and drops what declares
// the object and what gorec's files have. These come after it: the overlay has no files that Go hasn't, since go vet, which go
// test runs, would look for them in the installed Go, up to Go 1.23.
func patchRace(s *source, h *hooks) error {
	for _, m := range racecall.FindAllStringSubmatch(s.text, -1) {
		if !h.have["rec_"+m[1]] {
			return s.refuse("", "the entry point __tsan_%s isn't known", m[1])
		}
	}
	s.text = object.ReplaceAllString(racecall.ReplaceAllString(s.text, "rec_$1("), "")
	for _, m := range declaration.FindAllStringSubmatch(s.text, -1) {
		switch name := m[2]; {
		case h.have[name] || contains(unused, name):
			s.text = strings.Replace(s.text, m[0], strings.Repeat("\n", strings.Count(m[0], "\n")), 1)
		case !strings.HasPrefix(name, "abigen_sync_atomic_"):
			return s.refuse(name, "the function in assembly isn't known")
		}
	}
	err := s.inspect(func(_ string, n ast.Node) string {
		if id, ok := n.(*ast.Ident); ok && strings.HasPrefix(id.Name, "__tsan_") {
			return "a use of the race detector's object isn't known"
		}
		return ""
	})
	s.text += h.code
	return err
}

// replaceAssembly puts gorec's own in place of race_amd64.s, unless that has a function that gorec's files don't have.
func replaceAssembly(s *source, h *hooks) error {
	for _, m := range symbol.FindAllStringSubmatch(s.text, -1) {
		function := strings.TrimPrefix(m[1], "runtime·")
		if !h.have[function] && !h.have[m[1]] && !contains(unused, function) {
			return s.refuse("", "gorec has no function %s", strings.ReplaceAll(m[1], "·", "."))
		}
	}
	s.text = h.assembly
	return nil
}
