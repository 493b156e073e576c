package translate

import (
	"strings"

	"gorace.local/recorder/internal/symbols"
	"gorace.local/recorder/internal/trace"
)

// Kind is what an object is.
type Kind uint8

// The kinds of objects that have names.
const (
	KindChannel Kind = iota
	KindLock
	KindOnce
	KindAtomic // what is ordered by atomic operations
	KindOrder  // what the library orders
	KindWake   // of a Cond
	kindVariable
)

// name is a name, or that of a kind where there is none. What the library orders has none then.
func (k Kind) name(name string) string {
	if strings.Trim(name, "_") != "" {
		return name
	}
	return [...]string{
		KindChannel: "chan", KindLock: "lock", KindOnce: "once", KindAtomic: "atomic", KindOrder: "", KindWake: "wake", kindVariable: "memory",
	}[k]
}

// Heap is an object of the heap.
type Heap struct {
	Base, Size uint64
	Type       uint64 // its offset from Header.Types, 0 if it isn't known
}

// Use is a use of a variable.
type Use struct {
	Write  bool
	Frames []symbols.Frame // the innermost first
}

// Namer names what a program uses.
type Namer interface {
	// Variable names the variable at an address by some of its uses, of which the first is a write if there is one; "" if it
	// has no name. object is nil for what isn't on the heap, or isn't known. Of a value of several words that are one
	// variable, as a string's, begin is the address of the first; else it is 0.
	Variable(addr uint64, object *Heap, uses []Use) (name string, begin uint64)

	// Size is that of a type's values, 0 if it isn't known.
	Size(typ uint64) uint64

	// Object names a channel, a lock and the like that is used at an address, by the calls there; "" if it has no name.
	Object(kind Kind, addr uint64, object *Heap, frames []symbols.Frame) string
}

// nameKey is what a name is remembered by: a hash of the sites and the kinds of the uses, and of what part of what it is.
type nameKey uint64

func (k *nameKey) add(words ...uint64) {
	for _, word := range words {
		h := (uint64(*k) ^ word) * 0x9E3779B97F4A7C15
		*k = nameKey(h ^ h>>29)
	}
}

// addPart adds which part of what an address is: of the heap's object there, which it answers, or where nothing is known of that,
// of all memory.
func (t *Translator) addPart(k *nameKey, addr, pos uint64) *Heap {
	h := t.heap.at(addr, pos)
	if h == nil {
		k.add(0, addr)
		return nil
	}
	offset := addr - h.Base
	if size := t.sizeOf(h.Type); size > 0 && h.Size >= 2*size {
		offset %= size
	}
	k.add(h.Type, offset)
	return h
}

// sizeOf is that of a type's values, 0 if it isn't known.
func (t *Translator) sizeOf(typ uint64) uint64 {
	if t.Namer == nil || typ == 0 {
		return 0
	}
	size, ok := t.sizes[typ]
	if !ok {
		size = t.Namer.Size(typ)
		t.sizes[typ] = size
	}
	return size
}

// nameAs is a name that is remembered: the number of its site, and how far before the address the variable begins.
type nameAs struct {
	site   uint32
	before uint32
}

// remembered answers what is remembered, or else is found now.
func (p *places) remembered(k nameKey, find func() nameAs) nameAs {
	as, ok := p.names[k]
	if !ok {
		as = find()
		p.names[k] = as
	}
	return as
}

// unnamed is an object that may be asked for its name: where it is used first, and its address, or which variable it is.
type unnamed struct {
	id       uint32
	site     uint32
	addr     uint64
	kind     Kind
	variable uint32
	gen      uint16
}

// Name gives the objects of a segment, which is the one that was made last, their names, and makes its trace anew. Who has a segment
// judged needs no names unless a race is found: to find them takes longer than all else.
func (t *Translator) Name(s *Segment) {
	parts := map[uint32]uint32{} // variables that are a part of another one
	for i := range t.unnamed {
		n := &t.unnamed[i]
		if n.kind != kindVariable {
			t.objects[n.id].Site = t.nameOfObject(n)
		} else if of := t.nameVariable(n); of != n.id {
			parts[n.id] = of
		}
	}
	of := s.Trace.Recording
	of.Sites = t.table
	joinParts(of.Records, parts)
	s.Trace = trace.New(of, t.Trace)
}

// nameVariable names a variable, and answers which one it is a part of, if not itself. Parts of one value are one variable if it is
// a package variable: of other memory nobody knows which words have been used together, since each has a generation of its own.
func (t *Translator) nameVariable(n *unnamed) (of uint32) {
	o, v := &t.objects[n.id], &t.variables[n.variable]
	site, begin := t.nameOfVariable(n.addr, v)
	o.Site = site
	if begin == n.addr || isInHeap(n.addr) || o.Kind == trace.Atomic {
		return n.id
	}
	if first := t.partOf(begin, uint64(n.gen), n.variable); first != v && first.id != 0 {
		v.id = first.id
		if o := &t.objects[first.id]; o.Kind == trace.Variable {
			o.Kind = trace.Content
		}
	}
	return v.id
}

// isInHeap reports whether an address is where a program with hooks has its heap and its stacks.
func isInHeap(addr uint64) bool { return addr-0xc000000000 < 0x2000000000 }

// partOf is the variable that stands for a value which begins at an address: the one there, if it is kept, else the first other part.
func (t *Translator) partOf(begin, gen uint64, part uint32) *variable {
	if w := t.wordAt(begin>>3<<16 | gen); w != nil {
		at, bit := uint32(0), uint8(1)<<(begin&7)
		w.each(bit, func(i uint32) { at = i })
		if v := &t.variables[at]; w.starts&bit != 0 && v.id != 0 {
			return v
		}
	}
	at, _ := t.values.add(begin<<16|gen, part)
	return &t.variables[at]
}

// joinParts has what is recorded of a part be about the variable that it is a part of; an access of several parts is one.
func joinParts(records []trace.Record, parts map[uint32]uint32) {
	last := &trace.Record{}
	for i := range records {
		r := &records[i]
		if of, ok := parts[r.Object]; ok {
			r.Object = of
		}
		if r.Op <= trace.Write && r.Op >= trace.Read && len(parts) > 0 && *r == *last {
			r.Op = trace.None
			continue
		}
		last = r
	}
}

// nameOfObject is the number of a site with the name of an object.
func (t *Translator) nameOfObject(n *unnamed) (site uint32) {
	k := nameKey(n.kind)
	heap := t.addPart(&k, n.addr, ^uint64(0))
	k.add(uint64(n.site), 1)
	return t.remembered(k, func() nameAs {
		place, name := "-", ""
		frames := t.framesAt(n.site)
		if f, ok := t.told(frames); ok {
			place = t.placeOf(f)
		}
		if t.Namer != nil {
			name = t.Namer.Object(n.kind, n.addr, heap, frames)
		}
		return nameAs{site: t.numberOf(place, n.kind.name(name))}
	}).site
}

// nameOfVariable is the number of a site with the name of a variable, and where that begins.
func (t *Translator) nameOfVariable(addr uint64, v *variable) (site uint32, begin uint64) {
	var k nameKey
	pos := uint64(0)
	for _, use := range v.uses {
		if use == 0 {
			k.add(0)
			continue
		}
		u := &t.uses[use-1]
		m := &t.moments.before[u.at]
		k.add(uint64(m.site)<<16 | uint64(u.what&^late))
		if m.pos > pos {
			pos = m.pos
		}
	}
	heap := t.addPart(&k, addr, pos)
	as := t.remembered(k, func() nameAs {
		name, begin := "", addr
		if t.Namer != nil {
			name, begin = t.Namer.Variable(addr, heap, t.usesOf(v))
		}
		as := nameAs{site: t.numberOf("-", kindVariable.name(name))}
		if begin != 0 && begin < addr && addr-begin <= longestValue {
			as.before = uint32(addr - begin)
		}
		return as
	})
	return as.site, addr - uint64(as.before)
}

// longestValue is how far after the begin of a value of several words, as a slice's or a bytes.Buffer's, its last word begins.
// What is longer may have parts that are used beside one another.
const longestValue = 56

// usesOf are some uses of a variable.
func (t *Translator) usesOf(v *variable) []Use {
	uses := make([]Use, 0, len(v.uses))
	for _, i := range v.uses {
		if i == 0 {
			continue
		}
		u := &t.uses[i-1]
		frames := append([]symbols.Frame(nil), t.framesAt(t.moments.before[u.at].site)...)
		uses = append(uses, Use{u.isWrite(), frames})
	}
	return uses
}
