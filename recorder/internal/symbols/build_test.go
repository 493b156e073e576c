package symbols

import (
	"debug/dwarf"
	"os"
	"os/exec"
	"path/filepath"
	"runtime"
	"strings"
	"testing"
)

// eachGo builds a folder of testdata with each Go that is there, and calls try with the program. With -short it takes
// the Go that runs the tests alone.
func eachGo(t *testing.T, folder string, flags []string, try func(t *testing.T, p *Program)) {
	t.Helper()
	commands := []string{filepath.Join(runtime.GOROOT(), "bin", "go")}
	if !testing.Short() {
		others, _ := filepath.Glob("/usr/lib/go-1.*/bin/go")
		commands = append(commands, others...)
	}
	tried := map[string]bool{}
	for _, command := range commands {
		out, err := exec.Command(command, "env", "GOVERSION").Output()
		if err != nil {
			t.Errorf("%s: %v", command, err)
			continue
		}
		version := strings.TrimSpace(string(out))
		if tried[version] {
			continue
		}
		tried[version] = true
		t.Run(version, func(t *testing.T) {
			p := openBuilt(t, command, folder, flags)
			try(t, p)
		})
	}
}

func openBuilt(t *testing.T, command, folder string, flags []string) *Program {
	t.Helper()
	p, err := Open(build(t, command, folder, flags))
	if err != nil {
		t.Fatal(err)
	}
	t.Cleanup(func() { p.Close() })
	return p
}

func build(t *testing.T, command, folder string, flags []string) (path string) {
	t.Helper()
	path = filepath.Join(t.TempDir(), "program")
	cmd := exec.Command(command, append(append([]string{"build", "-o", path}, flags...), ".")...)
	cmd.Dir = filepath.Join("testdata", folder)
	cmd.Env = append(os.Environ(), "GOTOOLCHAIN=local", "GOFLAGS=-mod=mod", "CGO_ENABLED=0")
	if out, err := cmd.CombinedOutput(); err != nil {
		t.Fatalf("%s: %v\n%s", command, err, out)
	}
	return path
}

// typeNamed looks for a type among those that package runtime has, and then among all.
func typeNamed(p *Program, name string) (found *Type) {
	p.TypeAt(1) // has these read
	for _, at := range p.debug().runtimes {
		if t := p.typeOf(at); t.Name == name {
			return t
		}
	}
	r := p.debug().Reader()
	for e, err := r.Next(); err == nil && e != nil && found == nil; e, err = r.Next() {
		if nameOf(e) == name && e.Tag != dwarf.TagVariable && e.Tag != dwarf.TagSubprogram {
			found = p.typeOf(e.Offset)
		}
	}
	return found
}

// offsetOf is what TypeAt finds a type by.
func offsetOf(p *Program, t *Type) uint64 {
	for at, entry := range p.debug().runtimes {
		if p.typeOf(entry) == t {
			return at
		}
	}
	return 0
}

// framesOf are the frames of a file's lines, each with all functions that have it.
func framesOf(p *Program, pkg, file string) map[int][]Frame {
	frames := map[int][]Frame{}
	seen := map[Frame]bool{}
	for i := 0; i < p.lines.count; i++ {
		f := p.lines.function(i)
		if PackageOf(f.name) != pkg {
			continue
		}
		end := f.entry + 1<<14
		if i+1 < p.lines.count {
			end = p.lines.function(i + 1).entry
		}
		for pc := f.entry; pc < end; pc++ {
			for _, x := range p.framesAt(pc) {
				if filepath.Base(x.File) == file && !seen[x] {
					seen[x] = true
					frames[x.Line] = append(frames[x.Line], x)
				}
			}
		}
	}
	return frames
}
