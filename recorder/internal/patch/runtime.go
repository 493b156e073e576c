package patch

import (
	"embed"
	"go/ast"
	"go/format"
	"go/parser"
	"go/token"
	"regexp"
	"strings"

	"gorace.local/recorder/internal/hooklog"
)

// runtimeFiles are gorec's own files of package runtime. The folder's name keeps them out of builds of this module.
//
//go:embed _runtime/*
var runtimeFiles embed.FS

// hooks are gorec's own files as a version of Go needs them.
type hooks struct {
	code     string // what comes after the imports of its Go files, in their order
	assembly string
	have     map[string]bool // its functions: those in Go, and in assembly as "sync∕atomic·AddInt32"
}

var (
	definition = regexp.MustCompile(`(?m)^func (\w+)\(`)
	symbol     = regexp.MustCompile(`(?m)^(?:TEXT\s+|ATOMIC\()([^\s(<,]*·\w+)`)
)

func hooksFor(minor int) (*hooks, error) {
	layout, err := ownLayout()
	if err != nil {
		return nil, err
	}
	h := &hooks{code: layout, have: map[string]bool{}}
	files, err := runtimeFiles.ReadDir("_runtime")
	if err != nil {
		return nil, err
	}
	for _, f := range files {
		text, err := runtimeFiles.ReadFile("_runtime/" + f.Name())
		if err != nil {
			return nil, err
		}
		if strings.HasSuffix(f.Name(), ".s") {
			h.assembly += string(text)
		} else {
			_, code, _ := strings.Cut(string(text), "\n)\n")
			h.code += code
		}
	}
	h.code = adapt(withoutSplits(h.code), minor)
	for _, m := range append(definition.FindAllStringSubmatch(h.code, -1), symbol.FindAllStringSubmatch(h.assembly, -1)...) {
		h.have[m[1]] = true
	}
	return h, nil
}

var function = regexp.MustCompile(`(?m)^func .*[{}]$`)

// withoutSplits has no function grow the stack.
func withoutSplits(text string) string { return function.ReplaceAllString(text, "//go:nosplit\n$0") }

// ownLayout is the log's layout for package runtime: each name of it begins with log there.
func ownLayout() (string, error) {
	positions := token.NewFileSet()
	f, err := parser.ParseFile(positions, "layout.go", hooklog.Layout, parser.ParseComments)
	if err != nil {
		return "", err
	}
	ast.Inspect(f, func(n ast.Node) bool {
		if id, ok := n.(*ast.Ident); ok && id.Obj != nil && f.Scope.Lookup(id.Name) == id.Obj {
			id.Name = "log" + strings.ToUpper(id.Name[:1]) + id.Name[1:]
		}
		return true
	})
	var text strings.Builder
	err = format.Node(&text, positions, f)
	_, code, _ := strings.Cut(text.String(), "import \"unsafe\"\n")
	return code, err
}

// A name is one of package runtime that a version of Go has another name for. gorec's files and rules use that of Go 1.19.
type name struct {
	old, new string
	from     int // the minor version
}

var names = []name{
	{`\.ptrdata\b`, `.PtrBytes`, 21},
	{`\b(typ|elemtype)\.size\b`, `$1.Size_`, 21},
	{`\bruntime/internal/atomic\b`, `internal/runtime/atomic`, 23},
	{`"internal/runtime/atomic"`, `$0; "internal/runtime/sys"`, 24},
	{`\bgetcallerpc\(\)`, `sys.GetCallerPC()`, 24},
	{`\bgetcallersp\(\)`, `sys.GetCallerSP()`, 24},
	{`\bsg\.elem\b`, `sg.elem.get()`, 26},
}

// adapt gives a text of gorec's the names of a version.
func adapt(text string, minor int) string {
	for _, n := range names {
		if minor >= n.from {
			text = regexp.MustCompile(n.old).ReplaceAllString(text, n.new)
		}
	}
	return text
}
