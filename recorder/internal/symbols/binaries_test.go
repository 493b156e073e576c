package symbols

import (
	"os"
	"path/filepath"
	"runtime"
	"strings"
	"testing"
)

// TestWithoutDebug: without debugging information there are functions, lines and inlined calls.
func TestWithoutDebug(t *testing.T) {
	command := filepath.Join(runtime.GOROOT(), "bin", "go")
	whole := openBuilt(t, command, "names", nil)
	for _, flags := range []string{"-w", "-compressdwarf=false"} {
		p := openBuilt(t, command, "names", []string{"-ldflags=" + flags})
		for i := 0; i < whole.lines.count; i++ {
			f := whole.lines.function(i)
			for _, pc := range []uint64{f.entry + 1, f.entry + 40, f.entry + 170} {
				got, want := p.Frames(pc), whole.Frames(pc)
				if !equalFrames(got, want) {
					t.Fatalf("%s: %#x: got %v, want %v", flags, pc, got, want)
				}
			}
		}
	}
}

func equalFrames(a, b []Frame) bool {
	if len(a) != len(b) {
		return false
	}
	for i := range a {
		if a[i] != b[i] {
			return false
		}
	}
	return true
}

// TestAnywhere: a program that may lie anywhere tells the same, once it is known where it lies.
func TestAnywhere(t *testing.T) {
	p := openBuilt(t, filepath.Join(runtime.GOROOT(), "bin", "go"), "names", []string{"-buildmode=pie"})
	const far = 0x55d0c0000000
	p.Relocate(p.lines.text + far)
	frames := framesOf(p, "main", "main.go")
	if len(frames) < 50 {
		t.Errorf("%d lines", len(frames))
	}
	f, ok := p.lines.find(uint64(p.entryOf(t, "main.main")))
	if !ok {
		t.Fatal("no function main.main")
	}
	if fs := p.Frames(f.entry + far + 1); len(fs) != 1 || fs[0].Function != "main.main" {
		t.Errorf("got %v", fs)
	}
	if fs := p.Frames(f.entry + 1); len(fs) != 0 {
		t.Errorf("got %v where it doesn't lie", fs)
	}
	if v, ok := p.globalAt(objectNamed(p, "runtime.allgs").Value + far); !ok || v.Word != "allgs" {
		t.Errorf("got %v", v)
	}
	o := objectNamed(p, "main.settings")
	if v, ok := p.globalAt(o.Value + far + 24); !ok || v.Word != "settings_names_elem" || v.Begin != o.Value+far+24 {
		t.Errorf("got %v", v)
	}
	typ := typeNamed(p, "main.account")
	if got := p.TypeAt(offsetOf(p, typ)); got != typ {
		t.Errorf("got %v, want %v", got, typ)
	}
}

func TestOpenRefuses(t *testing.T) {
	dir := t.TempDir()
	text := filepath.Join(dir, "text")
	if err := os.WriteFile(text, []byte("no program"), 0o644); err != nil {
		t.Fatal(err)
	}
	empty := filepath.Join(dir, "empty")
	if err := os.WriteFile(empty, nil, 0o644); err != nil {
		t.Fatal(err)
	}
	stripped := build(t, filepath.Join(runtime.GOROOT(), "bin", "go"), "names", []string{"-ldflags=-s"})
	if _, err := Open(stripped); err == nil || !strings.Contains(err.Error(), "no symbols, which gorec build leaves in a program") {
		t.Errorf("a program without symbols: got %v", err)
	}
	for _, path := range []string{text, empty, filepath.Join(dir, "none")} {
		if _, err := Open(path); err == nil || !strings.Contains(err.Error(), filepath.Base(path)) {
			t.Errorf("%s: got %v", path, err)
		}
	}
}
