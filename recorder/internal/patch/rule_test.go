package patch

import (
	"errors"
	"strings"
	"testing"
)

const program = `package p

func f(c int) bool {
	if c == 0 {
		racecall(c)
		return false
	}
	return false
}

// g calls raceother(c).
func (m *M[T]) g(c int) {
	racecall(c) // and raceother(c)
}

func old(c int) { }

func racecall(c int) {
	raceother(c)
}
`

func small(text string) *source {
	return &source{version: "go1.19.8", minor: 19, name: "p/p.go", text: text}
}

func TestRules(t *testing.T) {
	cases := []struct {
		name  string
		rule  rule
		want  string // a part of the result
		wrong string // a part of the refusal
	}{
		{"in a function", rule{in: "f", old: `racecall\((c)\)`, new: `tell($1, 1)`}, "\t\ttell(c, 1)\n", ""},
		{"in a method", rule{in: "(*M[T]).g", old: `racecall\(c\)`, new: `tell(c)`}, "\ttell(c) // and", ""},
		{"each of several", rule{in: "f", old: `return false`, new: `return true`, count: 2}, "\t\treturn true\n\t}\n\treturn true\n", ""},
		{"anywhere", rule{in: anywhere, old: `return false`, new: `return true`, count: several}, "\t\treturn true\n\t}\n\treturn true\n", ""},
		{"of a later version", rule{in: "none", old: `x`, from: 20}, program, ""},
		{"of an earlier version", rule{in: "none", old: `x`, to: 18}, program, ""},
		{"no such function", rule{in: "none", old: `x`}, "", "p/p.go, none: no such function"},
		{"no such method", rule{in: "(*M).g", old: `x`}, "", "p/p.go, (*M).g: no such function"},
		{"a function of one line", rule{in: "old", old: `x`}, "", "no such function"},
		{"another text", rule{in: "f", old: `racecall\(d\)`}, "", `stands there 0 times, expected once`},
		{"another count", rule{in: "f", old: `return false`}, "", `"return false" stands there 2 times, expected once`},
		{"another length", rule{in: "f", old: `racecall\(c\)`, new: "a\nb"}, "", "once it is patched"},
	}
	for _, c := range cases {
		t.Run(c.name, func(t *testing.T) {
			s := small(program)
			err := s.apply([]rule{c.rule})
			if c.wrong != "" {
				checkRefusal(t, err, c.wrong)
				return
			}
			if err != nil || !strings.Contains(s.text, c.want) {
				t.Errorf("%v, got:\n%s\nwant a part:\n%s", err, s.text, c.want)
			}
		})
	}
}

// checkRefusal says whether an error tells the version, what is wrong, and what has to be done.
func checkRefusal(t *testing.T, err error, wrong string) {
	t.Helper()
	var refusal *Refusal
	if !errors.As(err, &refusal) {
		t.Fatalf("got the error %v, want a refusal", err)
	}
	for _, part := range []string{"go1.19.8 isn't as gorec knows it: ", wrong, "has to be taken up", guide} {
		if !strings.Contains(err.Error(), part) {
			t.Errorf("the refusal %q doesn't say %q", err, part)
		}
	}
}

func TestWatch(t *testing.T) {
	w := watch{calls: `^race\w+$`, known: []string{"racecall"}, but: []string{"racecall"}}
	if err := small(program).check(w); err != nil {
		t.Error(err)
	}
	w.but = nil
	checkRefusal(t, small(program).check(w), "p/p.go, racecall: the call of raceother isn't known")
	w.known = nil
	checkRefusal(t, small(program).check(w), "p/p.go, f: the call of racecall isn't known")
	method := strings.Replace(program, "// and raceother(c)", "; raceother(c)", 1)
	w = watch{calls: w.calls, known: []string{"racecall"}, but: []string{"racecall"}}
	checkRefusal(t, small(method).check(w), "p/p.go, (*M[T]).g: the call of raceother isn't known")
}
