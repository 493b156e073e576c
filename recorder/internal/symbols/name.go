package symbols

import (
	"reflect"
	"sort"
	"strings"
)

// Access is what is known of a read or a write, or of an operation on a lock, a channel and the like.
type Access struct {
	Addr   uint64
	Write  bool
	Frames []Frame // the calls, the innermost first
	Object *Object // the heap object, if the address is in one
}

// Object is a piece of the heap.
type Object struct {
	Base, Size uint64
	Type       uint64 // offset of what it was made for from the program's types; 0: unknown
}

// Name is what an access is about.
type Name struct {
	Word  string // for a trace: Account_mu, xs_elem, p_at; or ""
	Begin uint64 // the address of a package variable, or of the part of one that is one variable; it may be before the access
	rank  int    // of the names of several accesses to one variable the one with the most counts
	isOwn bool   // it is that of a variable of the function
}

// How well names fit what is known of the memory.
const (
	noFit    = 0
	vague    = 10 // by the type of the object, which has no name
	guess    = 30 // nothing contradicts it
	typed    = 35 // by the type of the object alone
	likely   = 50 // types fit as far as they are known
	fits     = 75
	declared = 100 // by a variable of a function
	exact    = 200 // by a package variable
)

// Name names what an access is about: a package variable, or the expression at its place that fits the memory best.
func (p *Program) Name(a Access) Name {
	if n, ok := p.globalAt(a.Addr); ok {
		return n
	}
	m := p.memoryOf(a)
	n := m.byType()
	if m.owner != nil {
		n = n.or(Name{Word: use{place: m.owner}.begin(m.steps), rank: fits})
	} else if !m.isField() || p.isLibrary(m.typ.pkg()) {
		n = n.or(p.bestUse(a, m))
	}
	return Name{Word: asWord(n.Word), Begin: a.Addr, rank: n.rank}
}

// NameOf is the best name that several accesses to one variable have.
func (p *Program) NameOf(list []Access) (best Name) {
	for i, a := range list {
		if n := p.Name(a); i == 0 || n.rank > best.rank {
			best = n
		}
	}
	return best
}

// globalAt names the package variable, or the part of one, that an address of the running program lies in.
func (p *Program) globalAt(addr uint64) (Name, bool) {
	at := addr - p.moved
	i := sort.Search(len(p.objects), func(i int) bool { return p.objects[i].Value+p.objects[i].Size > at })
	if i == len(p.objects) || p.objects[i].Value > at {
		return Name{}, false
	}
	o := p.objects[i]
	pkg, name := PackageOf(o.Name), nameInPackage(o.Name)
	if isMadeUp(name) || strings.Contains(pkg, ":") {
		return Name{}, false
	}
	t, _ := p.variable(pkg, name)
	steps, offset, typ := descend(t, at-o.Value)
	begin := o.Value + p.moved + offset
	if typ == nil || typ.isOpaque() {
		begin = addr // two of its methods may use different words beside one another
	}
	return Name{Word: asWord(wordOf(name, steps)), Begin: begin, rank: exact}, true
}

// nameInPackage is a symbol without its package, or "" if it has none.
func nameInPackage(symbol string) string {
	_, name, _ := strings.Cut(symbol[strings.LastIndexByte(symbol, '/')+1:], ".")
	return name
}

// isMadeUp reports whether the compiler has named a variable, as main..stmp_1, the value of a composite literal.
func isMadeUp(name string) bool {
	return name == "" || strings.HasPrefix(name, ".") || strings.ContainsAny(name, ":*")
}

// memory is what an access is about: a part of an object, as far as it is known.
type memory struct {
	typ     *Type // what the object was made for; nil: unknown
	several bool  // it has elements of that type
	isMap   bool  // it is of what a map holds, which is one variable
	steps   []step
	write   bool
	owner   *place  // of what a package variable was made with
	calls   []Frame // of Go's library, that came to it
}

// memoryOf answers what is known of an access's memory.
func (p *Program) memoryOf(a Access) *memory {
	m, o := &memory{write: a.Write}, a.Object
	if s, ok := p.staticAt(a.Addr); ok && o == nil {
		m.owner = s.place
		m.be(s.home, a.Addr-p.moved-s.begin, s.end-s.begin)
	} else if o != nil && o.Type != 0 && a.Addr-o.Base < o.Size {
		m.be(p.TypeAt(o.Type), a.Addr-o.Base, o.Size)
	}
	return m
}

// be notes what the memory was made for. What package runtime makes for itself tells nothing. For most that is in maps the
// debugging information has no types.
func (m *memory) be(t *Type, at, size uint64) {
	switch {
	case t == nil || t.isOfMap():
		m.typ, m.isMap = t, true
	case t.pkg() != "runtime" && t.Size > 0:
		m.typ = t
		if m.several = size >= 2*t.Size; m.several {
			m.steps = []step{{field: field{typ: t}}}
		}
		steps, _, _ := descend(t, at%t.Size)
		m.steps = append(m.steps, steps...)
	}
}

// isOfMap reports whether package runtime makes maps of a type.
func (t *Type) isOfMap() bool {
	name := strings.TrimPrefix(t.Name, "noalg.")
	return strings.HasPrefix(name, "map.") || name == "runtime.hmap" || t.pkg() == "internal/runtime/maps"
}

// home is the type in whose name that of the memory begins, and what leads from that to the memory's part.
func (m *memory) home() (*Type, []step) {
	t, steps := m.typ, m.steps
	for t != nil && t.Kind == reflect.Array && t.short() == "" {
		t = t.Elem()
	}
	for len(steps) > 0 && steps[0].name == "" {
		steps = steps[1:]
	}
	return t, steps
}

// isField reports whether the memory is a field of a named type, so that no more is to be known.
func (m *memory) isField() bool {
	home, steps := m.home()
	return home.short() != "" && len(steps) > 0
}

// byType names a part of an object by its type alone.
func (m *memory) byType() Name {
	home, steps := m.home()
	switch name := home.short(); {
	case m.isMap && m.typ != nil:
		return Name{Word: "map", rank: vague}
	case m.isField():
		return Name{Word: wordOf(name, steps), rank: typed}
	case home != nil && home.Kind == reflect.Struct && name != "":
		return Name{Word: name, rank: typed}
	case len(m.steps) > 0:
		return Name{Word: wordOf(name, m.steps), rank: vague}
	}
	return Name{}
}

// or is another name, if that says as much.
func (n Name) or(o Name) Name {
	if o.rank >= n.rank && o.Word != "" {
		return o
	}
	return n
}

// bestOf is the name that fits best, of which the rank then tells no more than how it does.
func bestOf(names []Name) (best Name) {
	isTied := false // another one fits as well
	for _, n := range names {
		switch {
		case n.rank > best.rank:
			best, isTied = n, false
		case n.rank == best.rank && n.Word != best.Word:
			isTied = true
		}
	}
	switch {
	case best.rank <= noFit:
		return Name{}
	case isTied || best.rank < guess-5:
		best.rank = guess
	case best.rank < fits-20:
		best.rank = likely
	case best.rank < fits || !best.isOwn:
		best.rank = fits
	default:
		best.rank = declared
	}
	return best
}

// asWord is a name without what a name of a trace can't have.
func asWord(s string) string {
	return strings.TrimLeft(strings.Map(func(r rune) rune {
		if r == '_' || r >= '0' && r <= '9' || r >= 'a' && r <= 'z' || r >= 'A' && r <= 'Z' {
			return r
		}
		return '_'
	}, s), "_")
}
