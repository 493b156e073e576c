package symbols

import (
	"path/filepath"
	"runtime"
	"testing"
)

func TestPart(t *testing.T) {
	const accountSize = 136
	cases := []struct {
		typ          string
		several      uint64
		offset       uint64
		word         string
		begin, bytes uint64
	}{
		{"main.account", 1, 0, "account_id", 0, 8},
		{"main.account", 1, 24, "account_tags", 8, 24},
		{"main.account", 1, 36, "account_mu", 32, 8},
		{"main.account", 1, 48, "account_owner", 40, 16},
		{"main.account", 1, 64, "account_limits_high", 64, 8},
		{"main.account", 1, 80, "account_limits_steps_elem", 80, 8},
		{"main.account", 1, 112, "account_when", 96, 24},
		{"main.account", 3, accountSize + 120, "account_next", accountSize + 120, 8},
		{"main.limits", 2, 8, "limits_high", 8, 8},
		{"main.grid", 1, 64, "point_y", 64, 8},
		{"main.grid", 1, 88, "grid_base", 88, 8},
		{"main.point", 5, 24, "point_y", 24, 8},
		{"int", 10, 24, "int_elem", 24, 8},
		{"int", 1, 0, "int", 0, 8},
		{"string", 4, 24, "string_elem", 16, 16},
		{"[2][2]int", 1, 24, "_elem_elem", 24, 8},
		{"bytes.Buffer", 1, 30, "Buffer", 0, 40},
		{"sync.WaitGroup", 1, 4, "WaitGroup", 0, 0},
		{"main.stack[string]", 1, 32, "stack_last", 24, 16},
	}
	eachGo(t, "names", nil, func(t *testing.T, p *Program) {
		for _, c := range cases {
			typ := typeNamed(p, c.typ)
			if typ == nil {
				t.Errorf("no type %s", c.typ)
				continue
			}
			m := p.memoryOf(Access{Addr: heapBase + c.offset, Object: &Object{heapBase, typ.Size * c.several, offsetOf(p, typ)}})
			word := wordOf(typ.short(), m.steps)
			_, begin, got := descend(typ, c.offset%typ.Size)
			if begin += c.offset - c.offset%typ.Size; begin != c.begin || got.Size != c.bytes && c.bytes != 0 || word != c.word {
				t.Errorf("%d values of %s +%d: got %s, %d bytes at %d, want %s, %d at %d",
					c.several, c.typ, c.offset, word, got.Size, begin, c.word, c.bytes, c.begin)
			}
		}
	})
}

// TestOpaque: a struct of the library without a field that anybody sees is one variable, unless it has locks of its own.
func TestOpaque(t *testing.T) {
	eachGo(t, "names", nil, func(t *testing.T, p *Program) {
		for name, want := range map[string]bool{
			"time.Time": true, "bytes.Buffer": true, "sync.Mutex": true, "sync.WaitGroup": true, "sync.Once": true,
			"main.limits": false, "main.account": false, "time.Timer": false, "os.File": true, "time.Location": true,
			"internal/poll.FD": false, "sync.Pool": false, "os.file": false, "int": false,
		} {
			typ := typeNamed(p, name)
			if typ == nil {
				t.Errorf("no type %s", name)
			} else if got := typ.isOpaque(); got != want {
				t.Errorf("%s: got %v, want %v", name, got, want)
			}
		}
	})
}

// TestLibrary: a package is Go's library's if its source lies there, whatever its path looks like.
func TestLibrary(t *testing.T) {
	p := openBuilt(t, filepath.Join(runtime.GOROOT(), "bin", "go"), "names", nil)
	p.module = "" // as of tests that older versions of Go have built
	for pkg, want := range map[string]bool{
		"bytes": true, "net/http": true, "vendor/golang.org/x/net/idna": true, "main": false, "myapp": false, "myapp/store": false,
		"myapp_test": false, "example.com/names/store": false, "": false,
	} {
		if got := p.isLibrary(pkg); got != want {
			t.Errorf("%q: got %v, want %v", pkg, got, want)
		}
	}
}

// TestOfMap: what the runtime makes of a map is no variable by itself.
func TestOfMap(t *testing.T) {
	for name, want := range map[string]bool{
		"map.bucket[string]int": true, "noalg.map.group[string]int": true, "runtime.hmap": true,
		"internal/runtime/maps.Map": true, "map[string]int": false, "main.Map": false, "int": false,
	} {
		if got := (&Type{Name: name}).isOfMap(); got != want {
			t.Errorf("%s: got %v, want %v", name, got, want)
		}
	}
}
