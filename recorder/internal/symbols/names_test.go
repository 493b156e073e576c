package symbols

import (
	"debug/elf"
	"fmt"
	"os"
	"path/filepath"
	"regexp"
	"runtime"
	"strconv"
	"strings"
	"testing"
)

// expectation is what a line of testdata/names says of an access there.
type expectation struct {
	line    int
	verb    string // read, write, deep, use, global, static
	what    string // the type or the operation
	several uint64 // of so many values
	offset  uint64
	word    string
}

var expected = regexp.MustCompile(`^(read|write|deep|use|global|static) ([^:]+): (\w+)$`)

func readExpectations(t *testing.T, path string) (list []expectation) {
	t.Helper()
	b, err := os.ReadFile(path)
	if err != nil {
		t.Fatal(err)
	}
	for i, line := range strings.Split(string(b), "\n") {
		_, comment, ok := strings.Cut(line, "// ")
		if !ok || strings.HasPrefix(line, "//") {
			continue
		}
		for _, s := range strings.Split(comment, "; ") {
			m := expected.FindStringSubmatch(s)
			if m == nil {
				t.Fatalf("%s:%d: %s", path, i+1, s)
			}
			e := expectation{line: i + 1, verb: m[1], what: m[2], several: 1, word: m[3]}
			if what, offset, ok := strings.Cut(e.what, "+"); ok {
				e.what = what
				e.offset, _ = strconv.ParseUint(offset, 10, 64)
			}
			if at := strings.LastIndexByte(e.what, '*'); at > 0 {
				e.several, _ = strconv.ParseUint(e.what[at+1:], 10, 64)
				e.what = e.what[:at]
			}
			list = append(list, e)
		}
	}
	return list
}

const heapBase = 0xc000010000

// object makes up an object of a type by its name: ? or ?/size has no type.
func (e expectation) object(t *testing.T, p *Program) *Object {
	t.Helper()
	if what, size, _ := strings.Cut(e.what, "/"); what == "?" {
		n, _ := strconv.ParseUint(size, 10, 64)
		return &Object{Base: heapBase, Size: n}
	}
	names := []string{e.what}
	if e.what == "map" {
		names = []string{"internal/runtime/maps.Map", "runtime.hmap"}
	}
	for _, name := range names {
		if typ := typeNamed(p, name); typ != nil {
			return &Object{Base: heapBase, Size: typ.Size * e.several, Type: offsetOf(p, typ)}
		}
	}
	t.Fatalf("there is no type %s", e.what)
	return nil
}

// caller is the call that a frame makes for an operation.
func (e expectation) caller(p *Program) []Frame {
	library := func(function string) []Frame {
		return []Frame{{Function: function, File: p.goroot + "/src/" + PackageOf(function) + "/x.go", Line: 1}}
	}
	switch {
	case e.verb == "deep":
		return library("sort.Strings")
	case e.verb != "use":
		return nil
	case e.what == sends:
		return library("runtime.chansend1")
	case e.what == receives:
		return library("runtime.chanrecv1")
	case e.what == closes:
		return library("runtime.closechan")
	}
	return library("sync.(*X)." + e.what)
}

func (e expectation) name(t *testing.T, p *Program, f Frame) Name {
	a := Access{Addr: heapBase + e.offset, Write: e.verb == "write", Frames: append(e.caller(p), f)}
	switch e.verb {
	case "use":
		return p.Object(a)
	case "global":
		a.Addr = objectNamed(p, e.what).Value + e.offset
		return p.Name(a)
	case "static": // what the linker has made for the variable
		a.Addr = order.Uint64(p.bytesAt(objectNamed(p, e.what).Value)) + e.offset
		return p.Name(a)
	}
	a.Object = e.object(t, p)
	return p.Name(a)
}

func objectNamed(p *Program, name string) elf.Symbol {
	for _, o := range p.objects {
		if o.Name == name {
			return o
		}
	}
	return elf.Symbol{}
}

// TestNames: what the lines of testdata/names say is what they get.
func TestNames(t *testing.T) {
	list := readExpectations(t, filepath.Join("testdata", "names", "main.go"))
	eachGo(t, "names", nil, func(t *testing.T, p *Program) {
		frames := framesOf(p, "main", "main.go")
		for _, e := range list {
			if len(frames[e.line]) == 0 {
				t.Errorf("line %d has no code", e.line)
			}
			var got []string
			ok := false
			for _, f := range frames[e.line] {
				n := e.name(t, p, f)
				got = append(got, fmt.Sprintf("%s (rank %d, %s)", n.Word, n.rank, f.Function))
				ok = ok || n.Word == e.word
			}
			if !ok {
				t.Errorf("line %d, %s %s: want %s, got %s", e.line, e.verb, e.what, e.word, strings.Join(got, " | "))
			}
		}
	})
}

// TestAllPlaces: whatever is handed to it, a program answers something.
func TestAllPlaces(t *testing.T) {
	p := openBuilt(t, filepath.Join(runtime.GOROOT(), "bin", "go"), "names", nil)
	var objects []*Object
	for _, name := range []string{"main.account", "main.point", "int", "string", "uint8", "[2][2]int", "bytes.Buffer", "main.limits", "*main.point", "error"} {
		typ := typeNamed(p, name)
		if typ == nil {
			t.Fatalf("no type %s", name)
		}
		objects = append(objects, &Object{Base: heapBase, Size: typ.Size, Type: offsetOf(p, typ)},
			&Object{Base: heapBase, Size: 5 * typ.Size, Type: offsetOf(p, typ)}, &Object{Base: heapBase, Size: typ.Size, Type: 24})
	}
	objects = append(objects, nil, &Object{Base: heapBase, Size: 64}, &Object{Base: heapBase + 8})
	named := 0
	for i := 0; i < p.lines.count; i += 3 {
		f := p.lines.function(i)
		for at := uint64(1); at < 400; at += 57 {
			fs := p.Frames(f.entry + at)
			o := objects[int(f.entry/16+at)%len(objects)]
			for offset := uint64(0); offset < 80; offset += 16 {
				a := Access{Addr: heapBase + offset, Write: at%2 == 0, Frames: fs, Object: o}
				if n := p.Name(a); n.Word != "" {
					named++
				}
				p.Object(a)
			}
		}
	}
	if named == 0 {
		t.Errorf("nothing has a name")
	}
}
