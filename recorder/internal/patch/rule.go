package patch

import (
	"fmt"
	"go/ast"
	"go/parser"
	"go/token"
	"go/types"
	"regexp"
	"strings"
)

// A rule replaces a text in a function of a source file of Go.
type rule struct {
	in    string // the function, as "chansend" or "(*Mutex).Lock"
	old   string // a regular expression
	new   string // what stands in its place; $1 is what the first group matched
	count int    // how often it stands there; 0 is once
	from  int    // the first minor version of Go that has it, or 0
	to    int    // the last one, or 0
}

const (
	anywhere = "" // in place of a function: all of the file
	several  = -1 // in place of a count: a watch says whether it is all
)

// A Refusal says why the sources of a Go can't be patched.
type Refusal struct {
	Version  string // of Go
	File     string // below GOROOT/src
	Function string // where it is, if it is in one
	Problem  string
}

func (r *Refusal) Error() string {
	at := r.File
	if r.Function != "" {
		at += ", " + r.Function
	}
	return fmt.Sprintf("%s isn't as gorec knows it: %s: %s. gorec has to be taken up for this version (%s)",
		r.Version, at, r.Problem, guide)
}

// A source is a file of Go that is patched.
type source struct {
	version string // of Go, for refusals
	minor   int
	name    string // below GOROOT/src
	text    string
}

func (s *source) refuse(function, format string, args ...interface{}) error {
	return &Refusal{s.version, s.name, function, fmt.Sprintf(format, args...)}
}

// apply replaces what the rules of this version say.
func (s *source) apply(rules []rule) error {
	lines := strings.Count(s.text, "\n")
	for _, r := range rules {
		if !isIn(s.minor, r.from, r.to) {
			continue
		}
		if err := s.applyOne(r); err != nil {
			return err
		}
	}
	if n := strings.Count(s.text, "\n"); n != lines {
		return s.refuse("", "it has %d lines once it is patched, and had %d", n, lines)
	}
	return nil
}

// isIn reports whether a minor version is one of these; 0 is no bound.
func isIn(minor, from, to int) bool { return minor >= from && (to == 0 || minor <= to) }

func (s *source) applyOne(r rule) error {
	begin, end := 0, len(s.text)
	if r.in != anywhere {
		if begin, end = s.function(r.in); begin < 0 {
			return s.refuse(r.in, "no such function")
		}
	}
	old, err := regexp.Compile(r.old)
	if err != nil {
		return fmt.Errorf("rule for %s, %s: %w", s.name, r.in, err)
	}
	body := s.text[begin:end]
	want := r.count
	if want == 0 {
		want = 1
	}
	if n := len(old.FindAllStringIndex(body, -1)); n != want && want != several {
		return s.refuse(r.in, "%q stands there %s, expected %s", r.old, times(n), times(want))
	}
	s.text = s.text[:begin] + old.ReplaceAllString(body, adapt(r.new, s.minor)) + s.text[end:]
	return nil
}

func times(n int) string {
	if n == 1 {
		return "once"
	}
	return fmt.Sprintf("%d times", n)
}

// function says where a function begins and ends, in source as gofmt writes it; -1 if there isn't exactly one.
func (s *source) function(name string) (begin, end int) {
	pattern := regexp.QuoteMeta(name)
	if receiver, method, ok := strings.Cut(name, ")."); ok {
		pattern = `\(\w+ ` + regexp.QuoteMeta(strings.TrimPrefix(receiver, "(")) + `\) ` + method
	}
	heads := regexp.MustCompile(`\nfunc `+pattern+`\([^\n]*\{\n`).FindAllStringIndex(s.text, -1)
	if len(heads) != 1 {
		return -1, -1
	}
	const last = "\n}\n"
	begin = heads[0][0] + 1
	return begin, begin + strings.Index(s.text[begin:], last) + len(last)
}

// A watch names calls that have to be known: one that a new version adds may be an order that gorec doesn't tell.
type watch struct {
	calls string   // a regular expression for what is called
	known []string // the calls that are told, or that tell nothing new
	but   []string // functions that nobody calls any more
}

// check refuses a source with a call that isn't known.
func (s *source) check(w watch) error {
	calls := regexp.MustCompile(w.calls)
	return s.inspect(func(in string, n ast.Node) string {
		call, ok := n.(*ast.CallExpr)
		if !ok || contains(w.but, in) {
			return ""
		}
		name := types.ExprString(call.Fun)
		if !calls.MatchString(name) || contains(w.known, name) {
			return ""
		}
		return fmt.Sprintf("the call of %s isn't known", name)
	})
}

// inspect refuses a source with a node that visit answers a problem for. It also gets the function that has the node.
func (s *source) inspect(visit func(in string, n ast.Node) (problem string)) error {
	f, err := parser.ParseFile(token.NewFileSet(), s.name, s.text, 0)
	if err != nil {
		return s.refuse("", "%v", err)
	}
	for _, d := range f.Decls {
		in, problem := nameOf(d), ""
		ast.Inspect(d, func(n ast.Node) bool {
			if problem == "" {
				problem = visit(in, n)
			}
			return problem == ""
		})
		if problem != "" {
			return s.refuse(in, "%s", problem)
		}
	}
	return nil
}

// nameOf is a function's name as a rule has it; "" is that of another declaration.
func nameOf(d ast.Decl) string {
	f, ok := d.(*ast.FuncDecl)
	switch {
	case !ok:
		return ""
	case f.Recv == nil:
		return f.Name.Name
	}
	return "(" + types.ExprString(f.Recv.List[0].Type) + ")." + f.Name.Name
}

func contains(list []string, word string) bool {
	for _, w := range list {
		if w == word {
			return true
		}
	}
	return false
}
