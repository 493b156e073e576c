package symbols

import (
	"go/ast"
	"go/token"
	"reflect"
	"strings"
)

// Object names what a lock, a channel operation and the like is about: by its address if it is a package variable or
// a field, and by the expression at its place: mu, s.mu, done. Frames begin with the operation's own, as sync.(*Mutex).Lock.
func (p *Program) Object(a Access) Name {
	if n, ok := p.globalAt(a.Addr); ok {
		return n
	}
	m := p.memoryOf(a)
	if m.isMap {
		m = &memory{}
	}
	n := m.byType()
	if verb, at := operationOf(a.Frames); at >= 0 && !m.isField() {
		if l := p.locatorFor(a.Frames[at]); l != nil {
			n = n.or(l.bestOperand(verb, m))
		}
	}
	return Name{Word: asWord(n.Word), Begin: a.Addr, rank: n.rank}
}

// operationOf answers the method or the operation that a stack begins with, and the frame that calls it.
func operationOf(frames []Frame) (verb string, at int) {
	for i, f := range frames {
		pkg := PackageOf(f.Function)
		switch {
		case pkg == "sync" || pkg == "sync/atomic" || pkg == "internal/sync":
			verb = f.Function[strings.LastIndexByte(f.Function, '.')+1:]
		case isRuntime(f.Function) && verb == "":
			verb = channelVerb(f.Function)
		case isRuntime(f.Function) || pkg == "internal/race":
		default:
			return verb, i
		}
	}
	return verb, -1
}

// What is done with channels.
const (
	sends    = "<- to"
	receives = "<- from"
	closes   = "close"
)

func channelVerb(function string) string {
	switch name := strings.TrimPrefix(function, "runtime."); {
	case strings.HasPrefix(name, "chansend"), name == "selectnbsend":
		return sends
	case strings.HasPrefix(name, "chanrecv"), name == "selectnbrecv":
		return receives
	case name == "closechan":
		return closes
	}
	return ""
}

// bestOperand names what the operation of a line is about. A deferred one happens where the function ends, so it may
// stand anywhere in it.
func (l *locator) bestOperand(verb string, m *memory) Name {
	var here, deferred []Name
	inspectOwn(l.fn, func(n ast.Node) {
		onLine := l.line(n.Pos()) == l.at
		switch s := n.(type) {
		case *ast.DeferStmt:
			if !onLine {
				deferred = append(deferred, l.operand(s.Call, verb, m)...)
			}
		case *ast.SelectStmt: // the runtime does the operations of its cases at its first line
			for _, c := range s.Body.List {
				if c := c.(*ast.CommClause); c.Comm != nil && onLine {
					inspectOwn(c.Comm, func(n ast.Node) { here = append(here, l.operand(n, verb, m)...) })
				}
			}
		}
		if onLine {
			here = append(here, l.operand(n, verb, m)...)
		}
	})
	if n := bestOf(here); n.rank > noFit {
		return n
	}
	return bestOf(deferred)
}

// operand names what a node operates on, if it does what the verb says.
func (l *locator) operand(n ast.Node, verb string, m *memory) []Name {
	does, on := operationIn(n)
	x := l.placeOf(on)
	switch {
	case x == nil || verb != "" && verb != does:
		return nil
	case m.typ == nil: // a channel's memory has nothing to go by
		return []Name{{Word: x.word, rank: likely}}
	}
	names := []Name{{Word: x.word, rank: guess - 10}, m.fit(use{place: x, write: m.write})}
	if x.typ != nil && x.typ.Kind == reflect.Ptr {
		names = append(names, m.fit(use{place: pointee(x, "_at"), write: m.write}))
	}
	return names
}

// operationIn is what a node does, and on what.
func operationIn(n ast.Node) (verb string, on ast.Expr) {
	switch n := n.(type) {
	case *ast.SendStmt:
		return sends, n.Chan
	case *ast.UnaryExpr:
		if n.Op == token.ARROW {
			return receives, n.X
		}
	case *ast.RangeStmt:
		return receives, n.X
	case *ast.CallExpr:
		f, isMethod := n.Fun.(*ast.SelectorExpr)
		if id, ok := n.Fun.(*ast.Ident); ok && id.Name == closes && len(n.Args) == 1 {
			return closes, n.Args[0]
		} else if !isMethod {
			return "", nil
		}
		if x, ok := f.X.(*ast.Ident); ok && x.Name == "atomic" && len(n.Args) > 0 {
			return f.Sel.Name, n.Args[0]
		}
		return f.Sel.Name, f.X
	}
	return "", nil
}
