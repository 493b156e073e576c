package symbols

import (
	"reflect"
	"sort"
)

// static is what the linker has made of a composite literal. It has no name of its own, but the package variable that
// it was made for points at it.
type static struct {
	*place
	begin, end uint64
}

// staticAt answers what an address of the running program's data was made for.
func (p *Program) staticAt(addr uint64) (s static, ok bool) {
	if p.statics == nil {
		p.findStatics()
	}
	at := addr - p.moved
	i := sort.Search(len(p.statics), func(i int) bool { return p.statics[i].end > at })
	if i == len(p.statics) || p.statics[i].begin > at {
		return static{}, false
	}
	return p.statics[i], true
}

// findStatics looks at what the variables of the program's own packages point at from the start.
func (p *Program) findStatics() {
	p.statics = []static{}
	for _, o := range p.objects {
		pkg, name := PackageOf(o.Name), nameInPackage(o.Name)
		if isMadeUp(name) || p.isLibrary(pkg) {
			continue
		}
		t, _ := p.variable(pkg, name)
		var head [24]byte // of a pointer or a slice
		p.readAt(o.Value, head[:])
		s := static{begin: order.Uint64(head[:])}
		switch x := (&place{word: name, typ: t}); {
		case s.begin == 0 || t.Elem() == nil:
			continue
		case t.Kind == reflect.Slice:
			s.place, s.end = element(x), s.begin+t.Elem().Size*order.Uint64(head[16:])
		case t.Kind == reflect.Ptr:
			s.place, s.end = pointee(x, ""), s.begin+t.Elem().Size
		default:
			continue
		}
		p.statics = append(p.statics, s)
	}
	sort.Slice(p.statics, func(i, j int) bool { return p.statics[i].begin < p.statics[j].begin })
}
