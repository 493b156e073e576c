package symbols

import "debug/dwarf"

// local is a variable of a function.
type local struct {
	function string // as in a frame
	name     string
	line     int // where it is declared, or 0
	typ      *Type
	heap     bool // it lies in the heap, and the function has its address
}

// localsOf answers the variables of a frame's function, also where it is inlined.
func (p *Program) localsOf(f Frame) []local {
	key := Frame{Function: f.Function, entry: f.entry}
	list, ok := p.locals[key]
	if ok {
		return list
	}
	all := p.localsIn(p.debug().function(f.entry), nil)
	for _, v := range all {
		if v.function != f.Function {
			continue
		}
		for _, h := range all {
			if h.heap && h.name == v.name && h.line == v.line {
				v.heap, v.typ = true, h.typ
			}
		}
		list = append(list, v)
	}
	p.locals[key] = list
	return list
}

// localsIn adds the variables of a function, and of those that are inlined in it. What all instances of a function have in
// common has the names.
func (p *Program) localsIn(function *dwarf.Entry, list []local) []local {
	origin := function
	if at := offset(function, dwarf.AttrAbstractOrigin); at != 0 {
		origin = p.debug().entryAt(at)
		list = p.variablesIn(origin, printed(nameOf(origin)), list)
	}
	return p.variablesIn(function, printed(nameOf(origin)), list)
}

func (p *Program) variablesIn(block *dwarf.Entry, function string, list []local) []local {
	p.debug().children(block, func(e *dwarf.Entry) {
		name := nameOf(e)
		switch {
		case e.Tag == dwarf.TagLexDwarfBlock:
			list = p.variablesIn(e, function, list)
		case e.Tag == dwarf.TagInlinedSubroutine:
			list = p.localsIn(e, list)
		case (e.Tag == dwarf.TagVariable || e.Tag == dwarf.TagFormalParameter) && name != "":
			v := local{function, name, int(number(e, dwarf.AttrDeclLine)), p.typeOf(offset(e, dwarf.AttrType)), name[0] == '&'}
			if v.heap {
				v.name, v.typ = name[1:], v.typ.Elem()
			}
			list = append(list, v)
		}
	})
	return list
}
