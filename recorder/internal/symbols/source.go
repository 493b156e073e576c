package symbols

import (
	"go/ast"
	"go/parser"
	"go/token"
	"strconv"
	"strings"
)

// source is a file of the program's source.
type source struct {
	set  *token.FileSet
	file *ast.File
}

// sourceOf answers a file, which is empty if it can't be read.
func (p *Program) sourceOf(path string) *source {
	if p.sources[path] == nil {
		p.sources[path] = parse(path, nil)
	}
	return p.sources[path]
}

// parse parses a text, or else the file of a name, as far as that goes.
func parse(path string, text interface{}) *source {
	s := &source{set: token.NewFileSet()}
	if s.file, _ = parser.ParseFile(s.set, path, text, 0); s.file == nil {
		s.file = &ast.File{}
	}
	return s
}

func (s *source) line(p token.Pos) int { return s.set.PositionFor(p, false).Line }

func (s *source) covers(n ast.Node, line int) bool {
	return s.line(n.Pos()) <= line && line <= s.line(n.End())
}

// functionAt answers what a line of a function is in: the declaration, or a function literal in it; nil if the file
// has no such line. What the compiler makes of a go or defer statement is in the function that has the statement. Of several
// literals on a line it is the one that has the number in its function, or the first.
func (s *source) functionAt(function string, line int) (found ast.Node) {
	depth, number := literalOf(function)
	deepest := -1
	var visit func(in ast.Node, at, nth int)
	visit = func(in ast.Node, at, nth int) {
		if at > depth || !s.covers(in, line) {
			return
		}
		if at > deepest || at == depth && nth == number {
			found, deepest = in, at
		}
		n := 0
		ast.Inspect(in, func(x ast.Node) bool {
			lit, ok := x.(*ast.FuncLit)
			if ok && x != in {
				n++
				visit(lit, at+1, n)
			}
			return !ok || x == in
		})
	}
	for _, d := range s.file.Decls {
		visit(d, 0, 0)
	}
	return found
}

// literalOf tells from a function's name in how many function literals it is, and the number of the last:
// of main.run.func2.1 2 and 1.
func literalOf(function string) (depth, number int) {
	for _, part := range strings.Split(nameInPackage(function), ".") {
		part, _, _ = strings.Cut(part, "-range")
		digits := strings.TrimPrefix(part, "func")
		if n, err := strconv.Atoi(digits); err == nil && (depth > 0 || digits != part) {
			depth, number = depth+1, n
		}
	}
	return depth, number
}

// inspectOwn visits the nodes of a function, but for those in function literals in it.
func inspectOwn(fn ast.Node, visit func(n ast.Node)) {
	ast.Inspect(fn, func(n ast.Node) bool {
		if _, ok := n.(*ast.FuncLit); n == nil || ok && n != fn {
			return false
		}
		visit(n)
		return true
	})
}
