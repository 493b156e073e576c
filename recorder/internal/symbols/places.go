package symbols

import (
	"go/ast"
	"go/token"
	"reflect"
	"strconv"
	"strings"
)

// place is what an expression of the source is about: a piece of memory, or a part of it.
type place struct {
	word string // for a trace
	typ  *Type  // of the value there; nil: unknown
	kind pieceKind
	root string // the word of what the memory begins with: a variable, or what leads to it, a pointer or a slice
	home *Type  // of the variable, the pointee or the element; nil: unknown
}

type pieceKind uint8

const (
	noPiece   pieceKind = iota // or a variable that doesn't lie in the heap: its address would tell
	ownPiece                   // a variable that does
	lostPiece                  // one that the compiler has left out of the debugging information
	pointeePiece
	elementPiece
	mapPiece
	contentPiece // what an object of Go's library holds
)

// locator finds the places of expressions in a function.
type locator struct {
	*source
	p      *Program
	fn     ast.Node // a function, or what else a package declares
	at     int      // the line
	pkg    string
	locals []local

	deep bool              // a function that is called uses the line's: what its arguments lead to counts too
	skip map[ast.Node]bool // what a statement only writes, and identifiers that are no variables
	uses []use
}

// locatorFor is nil where there is no source.
func (p *Program) locatorFor(f Frame) *locator {
	s := p.sourceOf(f.File)
	fn := s.functionAt(f.Function, f.Line)
	if fn == nil {
		return nil
	}
	return &locator{source: s, p: p, fn: fn, at: f.Line, pkg: PackageOf(f.Function), locals: p.localsOf(f), skip: map[ast.Node]bool{}}
}

// placeOf answers the place of an expression, or nil where it has none that is worth a name.
func (l *locator) placeOf(e ast.Expr) *place {
	switch e := e.(type) {
	case *ast.ParenExpr:
		return l.placeOf(e.X)
	case *ast.SliceExpr:
		return l.placeOf(e.X)
	case *ast.Ident:
		return l.ident(e)
	case *ast.SelectorExpr:
		return l.selector(e)
	case *ast.IndexExpr:
		return element(l.placeOf(e.X))
	case *ast.StarExpr:
		return pointee(l.placeOf(e.X), "_at")
	case *ast.UnaryExpr:
		if e.Op == token.AND {
			return l.placeOf(e.X)
		}
	case *ast.TypeAssertExpr:
		if x := l.placeOf(e.X); x != nil {
			return &place{word: x.word}
		}
	case *ast.CallExpr:
		return l.result(e)
	}
	return nil
}

// result answers what has no memory of its own, but may lead to some.
func (l *locator) result(e *ast.CallExpr) *place {
	switch f := e.Fun.(type) {
	case *ast.Ident:
		if len(e.Args) == 1 && (f.Name == "append" || f.Name == "string") {
			return l.placeOf(e.Args[0])
		}
		return &place{word: f.Name}
	case *ast.SelectorExpr:
		if s := l.selector(f); s != nil {
			return &place{word: s.word}
		}
		return &place{word: f.Sel.Name}
	}
	return nil
}

func (l *locator) ident(e *ast.Ident) *place {
	if e.Name == "_" || e.Obj != nil && e.Obj.Kind != ast.Var {
		return nil
	}
	x := &place{word: e.Name, root: e.Name}
	t, isGlobal := l.p.variable(l.pkg, e.Name)
	v, isLocal := l.local(e)
	switch {
	case isGlobal && (e.Obj == nil || e.Obj == l.file.Scope.Lookup(e.Name)):
		x.typ = t
	case isLocal && v.heap:
		x.typ, x.kind = v.typ, ownPiece
	case isLocal:
		x.typ = v.typ
	case e.Obj == nil:
		return nil
	default:
		x.kind = lostPiece
	}
	x.home = x.typ
	return x
}

// local answers the function's variable of a name, of several the one that is declared where the name's is.
func (l *locator) local(e *ast.Ident) (found local, ok bool) {
	for _, v := range l.locals {
		if v.name == e.Name && (!ok || e.Obj != nil && e.Obj.Pos().IsValid() && v.line == l.line(e.Obj.Pos())) {
			found, ok = v, true
		}
	}
	return found, ok
}

func (l *locator) selector(e *ast.SelectorExpr) *place {
	x, name := l.placeOf(e.X), e.Sel.Name
	if x == nil {
		if id, ok := e.X.(*ast.Ident); ok {
			return l.imported(id, name)
		}
		return &place{word: name}
	}
	y := &place{word: x.word + "_" + name}
	if s := x.typ.pointedAt().short(); s != "" {
		y.word = s + "_" + name
	} else if x.kind == lostPiece {
		y.kind, y.root = x.kind, x.root
	}
	for _, f := range x.typ.pointedAt().member(name, 5) {
		if x.typ.Kind == reflect.Ptr {
			x = pointee(x, "")
		}
		y.typ, y.kind, y.root, y.home = f.typ, x.kind, x.root, x.home
		x = y
	}
	return y
}

// imported answers a variable of another package.
func (l *locator) imported(pkg *ast.Ident, name string) *place {
	for _, i := range l.file.Imports {
		path, _ := strconv.Unquote(i.Path.Value)
		as := path[strings.LastIndexByte(path, '/')+1:] // most often
		if i.Name != nil {
			as = i.Name.Name
		}
		if as != pkg.Name || pkg.Obj != nil {
			continue
		}
		if t, ok := l.p.variable(path, name); ok {
			return &place{word: name, typ: t}
		}
	}
	return nil
}

// element answers the place of an element of x.
func element(x *place) *place {
	if x == nil {
		return nil
	}
	y := &place{word: x.word + "_elem", typ: x.typ.Elem(), kind: elementPiece, root: x.word}
	array := x.typ.pointedAt()
	switch {
	case x.typ == nil:
	case x.typ.Kind == reflect.Map:
		y.word, y.kind = x.word, mapPiece
	case x.typ.Kind == reflect.Slice:
		y.home = y.typ
	case array != nil && array.Kind == reflect.Array:
		if x.typ.Kind == reflect.Ptr {
			x = pointee(x, "")
		}
		y.typ, y.kind, y.root, y.home = array.Elem(), x.kind, x.root, x.home
	default:
		return nil
	}
	return y
}

// pointee answers what x points at; the source has it with a star, or not.
func pointee(x *place, star string) *place {
	if x == nil {
		return nil
	}
	y := &place{word: x.word + star, kind: pointeePiece, root: x.word}
	if x.typ != nil && x.typ.Kind == reflect.Ptr {
		y.typ = x.typ.Elem()
		y.home = y.typ
	}
	return y
}
