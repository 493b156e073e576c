package symbols

import (
	"reflect"
	"strings"
)

// bestUse looks for what fits best where the access is: in Go's library what the program has handed to it, else
// what the library's own line has.
func (p *Program) bestUse(a Access, m *memory) Name {
	frames := a.Frames
	for len(frames) > 0 && (isRuntime(frames[0].Function) || PackageOf(frames[0].Function) == "internal/race") {
		frames = frames[1:]
	}
	own := 0
	for own < len(frames) && p.IsStandard(frames[own]) {
		own++
	}
	switch {
	case len(frames) == 0:
		return Name{}
	case own == 0 || own == len(frames):
		return p.bestAt(frames[0], m, false)
	}
	m.calls = frames[:own]
	if n := p.bestAt(frames[own], m, true); n.rank > noFit {
		return n
	}
	n := p.bestAt(frames[0], m, false)
	if n.rank > guess {
		n.rank = guess // it is what the library calls something of the program's
	}
	return n
}

// isRuntime reports whether a function is one that the compiler calls for a statement, as that for append.
func isRuntime(function string) bool {
	pkg := PackageOf(function)
	return pkg == "runtime" || strings.HasPrefix(pkg, "internal/runtime/") || strings.HasPrefix(pkg, "runtime/internal/")
}

// bestAt names the memory by what fits it best of what a frame's line uses.
func (p *Program) bestAt(f Frame, m *memory, deep bool) Name {
	l := p.locatorFor(f)
	if l == nil {
		return Name{}
	}
	l.deep = deep
	var names []Name
	for _, u := range l.usesAt() {
		names = append(names, m.fit(u))
	}
	return bestOf(names)
}

// fit answers what the memory is called by a use, and how well that fits.
func (m *memory) fit(u use) Name {
	n := Name{Word: u.word, isOwn: u.kind == ownPiece}
	switch {
	case m.isMap && u.kind == mapPiece:
		n.Word, n.rank = u.root, declared
	case m.isMap && u.typ != nil && u.typ.Kind == reflect.Map:
		n.rank = likely
	case u.kind == contentPiece:
		n.rank = m.fitContent(u.home)
	case m.isMap || m.isField() || u.kind == mapPiece || u.kind == noPiece:
		return Name{}
	case u.kind == lostPiece && m.typ != nil && (len(m.steps) > 0 || u.word != u.root):
		return Name{}
	case u.kind == lostPiece:
		n.rank = guess / 2
	case m.typ != nil && u.home != nil:
		n.Word, n.rank = m.fitTypes(u)
	case m.several && u.kind == elementPiece:
		n.rank = likely - 10
	default:
		n.rank = guess
	}
	if u.write != m.write {
		n.rank -= 15
	}
	if u.derived {
		n.rank -= 5
	}
	return n
}

// fitContent: what methods of an object of Go's library come to, and has no name of its own, belongs to the object.
func (m *memory) fitContent(home *Type) int {
	if t := m.typ; t != nil && t.pkg() != "" && !t.p.isLibrary(t.pkg()) {
		return noFit
	}
	for _, f := range m.calls {
		if method := strings.TrimPrefix(f.Function, home.pkg()+"."); strings.HasPrefix(method, home.short()+".") ||
			strings.HasPrefix(method, "(*"+home.short()+").") {
			return likely - 5
		}
	}
	return noFit
}

// fitTypes looks for the use's type on the way from the object to the part.
func (m *memory) fitTypes(u use) (word string, rank int) {
	for i := 0; i <= len(m.steps); i++ {
		t, isElement := m.typ, i > 0 && m.steps[i-1].name == ""
		if i > 0 {
			t = m.steps[i-1].typ
		}
		switch {
		case i == 0 && m.several || !u.home.alike(t):
		case u.kind == elementPiece && isElement:
			return wordOf(u.root, m.steps[i-1:]), declared
		case u.kind == elementPiece && i == 0, u.kind == pointeePiece && i > 0:
			return u.begin(m.steps[i:]), fits
		case i == 0:
			return u.begin(m.steps), declared
		}
	}
	return "", noFit
}

// begin is the word of a part of what the use's memory begins with.
func (u use) begin(steps []step) string {
	switch {
	case len(steps) == 0 && u.kind == pointeePiece:
		return u.root + "_at"
	case len(steps) == 0 && u.kind == elementPiece:
		return u.root + "_elem"
	}
	return wordOf(u.root, steps)
}
