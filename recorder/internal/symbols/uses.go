package symbols

import (
	"go/ast"
	"go/token"
	"go/types"
	"reflect"
)

// use is something that a line may read or write.
type use struct {
	*place
	write   bool
	derived bool // it isn't the expression itself, but what it leads to
}

// usesAt answers what the line uses, what is likeliest first.
func (l *locator) usesAt() []use {
	var stmt ast.Node // the smallest that covers the line
	inspectOwn(l.fn, func(n ast.Node) {
		if l.line(n.Pos()) == l.at {
			l.node(n)
		}
		switch n.(type) {
		case *ast.AssignStmt, *ast.ExprStmt, *ast.ReturnStmt, *ast.GoStmt, *ast.DeferStmt, *ast.SendStmt, *ast.DeclStmt, *ast.ValueSpec:
			if l.covers(n, l.at) {
				stmt = n
			}
		}
	})
	if len(l.uses) == 0 && stmt != nil {
		inspectOwn(stmt, l.node)
	}
	return l.uses
}

func (l *locator) add(x *place, write bool) {
	if x != nil {
		l.uses = append(l.uses, use{place: x, write: write})
	}
}

// lead lists what a value leads to: what it points at, or its elements.
func (l *locator) lead(x *place, write bool) {
	if x == nil || x.typ == nil {
		return
	}
	if x.typ.Kind == reflect.Ptr {
		x = pointee(x, "_at")
		l.uses = append(l.uses, use{x, write, true})
	}
	if y := element(x); y != nil {
		l.uses = append(l.uses, use{y, write, true})
	}
}

// set lists what a statement sets, which may have just been made.
func (l *locator) set(e ast.Expr) {
	x := l.placeOf(e)
	l.add(x, true)
	l.lead(x, true)
}

// node lists what one node reads and writes.
func (l *locator) node(n ast.Node) {
	switch n := n.(type) {
	case *ast.AssignStmt:
		for _, e := range n.Lhs {
			l.set(e)
			l.skip[e] = n.Tok == token.ASSIGN || n.Tok == token.DEFINE
		}
	case *ast.IncDecStmt:
		l.add(l.placeOf(n.X), true)
	case *ast.ValueSpec:
		l.declared(n.Names)
	case *ast.Field:
		l.declared(n.Names)
	case *ast.RangeStmt:
		for _, e := range []ast.Expr{n.Key, n.Value} {
			if e != nil {
				l.add(l.placeOf(e), true)
				l.skip[e] = true
			}
		}
		l.add(element(l.placeOf(n.X)), false)
	case *ast.ReturnStmt:
		l.results()
	case *ast.CallExpr:
		l.call(n)
	case *ast.KeyValueExpr:
		if id, ok := n.Key.(*ast.Ident); ok && id.Obj == nil {
			l.skip[id] = true
		}
	case *ast.SelectorExpr:
		l.skip[n.Sel] = true
		l.expression(n)
	case *ast.Ident, *ast.IndexExpr, *ast.StarExpr:
		l.expression(n.(ast.Expr))
	case *ast.UnaryExpr:
		if l.deep && n.Op == token.AND {
			l.expression(n)
		}
	}
}

func (l *locator) declared(names []*ast.Ident) {
	for _, e := range names {
		l.set(e)
		l.skip[e] = true
	}
}

// expression lists what an expression reads, and what a function that is handed it comes to.
func (l *locator) expression(e ast.Expr) {
	x := l.placeOf(e)
	if x == nil || l.skip[e] {
		return
	}
	l.add(x, false)
	if l.deep {
		l.add(x, true)
		l.lead(x, false)
		l.lead(x, true)
		if home := x.typ.pointedAt(); home.isOpaque() {
			y := &place{word: x.word, kind: contentPiece, home: home}
			l.add(y, false)
			l.add(y, true)
		}
	}
}

// results lists the named results of the function, which a return writes.
func (l *locator) results() {
	var of *ast.FuncType
	switch fn := l.fn.(type) {
	case *ast.FuncDecl:
		of = fn.Type
	case *ast.FuncLit:
		of = fn.Type
	}
	if of == nil || of.Results == nil {
		return
	}
	for _, f := range of.Results.List {
		for _, id := range f.Names {
			l.add(l.placeOf(id), true)
		}
	}
}

// call lists what Go's own functions read and write beyond their arguments.
func (l *locator) call(n *ast.CallExpr) {
	elements := func(i int, write bool) {
		if i < len(n.Args) {
			l.add(element(l.placeOf(n.Args[i])), write)
		}
	}
	switch types.ExprString(n.Fun) {
	case "append":
		elements(0, true)
		elements(0, false)
	case "copy":
		elements(0, true)
		elements(1, false)
	case "delete", "clear":
		elements(0, true)
	case "string", "[]byte", "[]rune":
		elements(0, false)
	}
	if n.Ellipsis.IsValid() {
		elements(len(n.Args)-1, false)
	}
}
