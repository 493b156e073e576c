package symbols

import "debug/dwarf"

// debugInfo is a program's debugging information. What is in a unit of it is read once it is asked for.
type debugInfo struct {
	*dwarf.Data
	units     map[string][]*dwarf.Entry // those that weren't read, by their packages
	functions map[uint64]*dwarf.Entry   // by where their code begins
	variables map[variable]dwarf.Offset // the types of package variables
	runtimes  map[uint64]dwarf.Offset   // types by where package runtime has them
}

// variable is one of a package.
type variable struct{ pkg, name string }

// Attributes that Go adds.
const (
	attrGoKind     dwarf.Attr = 0x2900
	attrGoElem     dwarf.Attr = 0x2902
	attrGoEmbedded dwarf.Attr = 0x2903
	attrGoType     dwarf.Attr = 0x2904
)

// debug reads the units' own entries alone. Of a program that was stripped there are none.
func (p *Program) debug() *debugInfo {
	if p.debugging != nil {
		return p.debugging
	}
	d := &debugInfo{
		units: map[string][]*dwarf.Entry{}, functions: map[uint64]*dwarf.Entry{},
		variables: map[variable]dwarf.Offset{}, runtimes: map[uint64]dwarf.Offset{},
	}
	p.debugging = d
	var err error
	if d.Data, err = p.elf.DWARF(); err != nil {
		return d
	}
	r := d.Reader()
	for e, err := r.Next(); err == nil && e != nil; e, err = r.Next() {
		if e.Tag == dwarf.TagCompileUnit {
			d.units[nameOf(e)] = append(d.units[nameOf(e)], e)
		}
		r.SkipChildren()
	}
	return d
}

func nameOf(e *dwarf.Entry) string {
	name, _ := e.Val(dwarf.AttrName).(string)
	return name
}

// offset answers the entry that an attribute refers to, or 0.
func offset(e *dwarf.Entry, a dwarf.Attr) dwarf.Offset {
	at, _ := e.Val(a).(dwarf.Offset)
	return at
}

// number answers what an attribute counts, or 0.
func number(e *dwarf.Entry, a dwarf.Attr) int64 {
	n, _ := e.Val(a).(int64)
	return n
}

// entryAt answers the entry at an offset, or an empty one.
func (d *debugInfo) entryAt(at dwarf.Offset) *dwarf.Entry {
	if d.Data != nil && at != 0 {
		r := d.Reader()
		r.Seek(at)
		if e, err := r.Next(); err == nil && e != nil {
			return e
		}
	}
	return &dwarf.Entry{}
}

// children calls visit with each child of an entry.
func (d *debugInfo) children(of *dwarf.Entry, visit func(e *dwarf.Entry)) {
	if !of.Children {
		return
	}
	r := d.Reader()
	r.Seek(of.Offset)
	r.Next()
	for {
		e, err := r.Next()
		if err != nil || e == nil || e.Tag == 0 {
			return
		}
		visit(e)
		r.SkipChildren()
	}
}

// read reads what is in a package's units.
func (d *debugInfo) read(pkg string) {
	for _, u := range d.units[pkg] {
		d.children(u, func(e *dwarf.Entry) {
			switch e.Tag {
			case dwarf.TagSubprogram:
				if begin, ok := e.Val(dwarf.AttrLowpc).(uint64); ok {
					d.functions[begin] = e
				}
			case dwarf.TagVariable:
				d.variables[variable{pkg, nameInPackage(nameOf(e))}] = offset(e, dwarf.AttrType)
			default:
				if at, ok := e.Val(attrGoType).(uint64); ok && at != 0 {
					d.runtimes[at] = e.Offset
				}
			}
		})
	}
	delete(d.units, pkg)
}

// function answers the entry of the function whose code begins at an address, or an empty one.
func (d *debugInfo) function(begin uint64) *dwarf.Entry {
	if d.functions[begin] == nil && d.Data != nil {
		if of, err := d.Reader().SeekPC(begin); err == nil {
			d.read(nameOf(of))
		}
	}
	if f := d.functions[begin]; f != nil {
		return f
	}
	return &dwarf.Entry{}
}

// variable answers the type of a variable of a package.
func (p *Program) variable(pkg, name string) (t *Type, ok bool) {
	d := p.debug()
	d.read(pkg)
	at, ok := d.variables[variable{pkg, name}]
	return p.typeOf(at), ok
}
