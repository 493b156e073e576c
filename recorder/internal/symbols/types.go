package symbols

import (
	"debug/dwarf"
	"go/ast"
	"reflect"
	"strings"
)

// Type is a type of the program, read as far as it is looked at.
type Type struct {
	Name string // as example.com/bank.Account or []int
	Size uint64
	Kind reflect.Kind

	p       *Program
	entry   *dwarf.Entry
	isRead  bool
	element *Type
	fields  []field
}

// field is one of a struct.
type field struct {
	name     string
	offset   uint64
	typ      *Type
	embedded bool
}

// TypeAt answers the type that package runtime has at an offset from its types, or nil. It has more than the debugging
// information does: what maps and closures are made of.
func (p *Program) TypeAt(at uint64) *Type {
	d := p.debug()
	d.read("runtime")                                // where the linker puts all types
	for _, key := range []uint64{at, p.types + at} { // some are told by the second
		if t := p.typeOf(d.runtimes[key]); t != nil {
			return t
		}
	}
	return p.arrayAt(p.types + at)
}

// arrayAt answers an array by what package runtime has at an address. Of one that a slice's literal is made of the debugging
// information may have nothing.
func (p *Program) arrayAt(addr uint64) *Type {
	const kindAt, elementAt = 23, 48
	var head [56]byte
	p.readAt(addr, head[:])
	e := p.typeOf(p.debug().runtimes[order.Uint64(head[elementAt:])-p.types])
	if kind := head[kindAt] & 31; reflect.Kind(kind) != reflect.Array || e == nil {
		return nil
	}
	return &Type{Name: "[]" + e.Name, Size: order.Uint64(head[:]), Kind: reflect.Array, p: p, isRead: true, element: e}
}

// typeOf answers the type of an entry, or nil. One that is told by another one's name is that one.
func (p *Program) typeOf(at dwarf.Offset) *Type {
	t, ok := p.typeAt[at]
	if ok || at == 0 {
		return t
	}
	p.typeAt[at] = nil // lest an entry leads to itself
	e := p.debug().entryAt(at)
	kind := reflect.Kind(number(e, attrGoKind))
	if e.Tag == dwarf.TagTypedef && kind == reflect.Invalid {
		t = p.typeOf(offset(e, dwarf.AttrType))
	} else {
		t = &Type{Name: nameOf(e), Size: uint64(number(e, dwarf.AttrByteSize)), Kind: kind, p: p, entry: e}
	}
	switch kind {
	case reflect.Ptr, reflect.Map, reflect.Chan, reflect.Func, reflect.UnsafePointer:
		t.Size = 8
	case reflect.Interface:
		t.Size = 16
	}
	p.typeAt[at] = t
	return t
}

// read reads what a type is made of.
func (t *Type) read() {
	if t.isRead {
		return
	}
	t.isRead = true
	switch t.Kind {
	case reflect.Slice, reflect.Chan, reflect.Map:
		t.element = t.p.typeOf(offset(t.entry, attrGoElem))
	case reflect.Ptr, reflect.Array:
		t.element = t.p.typeOf(offset(t.entry, dwarf.AttrType))
	case reflect.Struct:
		t.p.debug().children(t.entry, func(e *dwarf.Entry) {
			if typ := t.p.typeOf(offset(e, dwarf.AttrType)); e.Tag == dwarf.TagMember && typ != nil {
				embedded, _ := e.Val(attrGoEmbedded).(bool)
				t.fields = append(t.fields, field{nameOf(e), uint64(number(e, dwarf.AttrDataMemberLoc)), typ, embedded})
			}
		})
	}
}

// Elem is the type of what an array, slice, pointer, channel or map holds, or nil.
func (t *Type) Elem() *Type {
	if t == nil {
		return nil
	}
	t.read()
	return t.element
}

// pointedAt is what a pointer points at, or the type itself.
func (t *Type) pointedAt() *Type {
	if t != nil && t.Kind == reflect.Ptr {
		return t.Elem()
	}
	return t
}

// members are the fields of a struct.
func (t *Type) members() []field {
	if t == nil {
		return nil
	}
	t.read()
	return t.fields
}

// member answers the fields that lead to one of a name, through embedded ones.
func (t *Type) member(name string, deepest int) []field {
	if deepest == 0 {
		return nil
	}
	for _, f := range t.members() {
		if f.name == name {
			return []field{f}
		}
	}
	for _, f := range t.members() {
		if f.embedded {
			if rest := f.typ.pointedAt().member(name, deepest-1); rest != nil {
				return append([]field{f}, rest...)
			}
		}
	}
	return nil
}

// short is a named type's name in its package, without what it is made for, or "".
func (t *Type) short() string {
	if t == nil || !isNamed(t.Name) {
		return ""
	}
	name, _, _ := strings.Cut(t.Name, "[")
	name, _, _ = strings.Cut(name, "·") // behind it is the number of one that a function declares
	return name[strings.LastIndexByte(name, '.')+1:]
}

// pkg is the path of the package that declares a type; "" if none does, as of int.
func (t *Type) pkg() string {
	if !isNamed(t.Name) || !strings.Contains(t.Name, ".") {
		return ""
	}
	return PackageOf(t.Name)
}

// isNamed tells a declared type, as main.Account or main.Box[int], from one like []int by its name.
func isNamed(name string) bool {
	i := strings.IndexAny(name, "[]*( {<")
	return i < 0 || i > 0 && name[i] == '[' && !strings.HasPrefix(name, "map[")
}

// alike reports whether two types are one, or may be, where a generic function knows no more than the shape of one.
func (t *Type) alike(o *Type) bool {
	if t == nil || o == nil || t.Kind != o.Kind || t.Size != o.Size {
		return false
	}
	return t == o || t.isShapeOf(o) || o.isShapeOf(t)
}

func (t *Type) isShapeOf(o *Type) bool {
	const shape = "go.shape."
	return strings.HasPrefix(t.Name, shape) || strings.Contains(t.Name, shape) && t.short() == o.short()
}

// isOpaque reports whether a type is a struct of Go's library that shows nobody its fields, so that a program takes it
// for one variable. One that has locks of its own isn't: what it does under them isn't what it does without.
func (t *Type) isOpaque() bool {
	if t == nil || t.Kind != reflect.Struct || !ast.IsExported(t.short()) || !t.p.isLibrary(t.pkg()) {
		return false
	}
	for _, f := range t.members() {
		if ast.IsExported(f.name) {
			return false
		}
	}
	return t.isSync() || !t.hasSync()
}

// isSync reports whether a type is one of package sync or sync/atomic.
func (t *Type) isSync() bool {
	pkg := t.pkg()
	return pkg == "sync" || pkg == "sync/atomic" || pkg == "internal/sync" || pkg == "internal/runtime/atomic"
}

// hasSync reports whether a value of the type has a lock, an atomic value or a channel in it.
func (t *Type) hasSync() bool {
	if t == nil || t.isSync() || t.Kind == reflect.Chan {
		return t != nil
	}
	for _, f := range t.members() {
		if f.typ.hasSync() {
			return true
		}
	}
	return t.Kind == reflect.Array && t.Elem().hasSync()
}
