package symbols

import (
	"go/ast"
	"os"
	"path/filepath"
	"strings"
	"testing"
)

const sample = `package sample

import "fmt"

type one struct {
	a int
}

// f has a text that looks like a declaration.
func f() string {
	return ` + "`" + `
func g() {
}
` + "`" + `
}

var (
	x = 1
	y = func() int { return x }
)

func h(
	a int,
) (err error) {
	go func() { fmt.Println(a) }()
	func() { a++ }(); func() { a-- }()
	return
}

func short() int { return 1 }
var z = map[string]int{
	"a": 1,
}
`

// TestDeclarations: each line is found in the declaration that it is in.
func TestDeclarations(t *testing.T) {
	path := filepath.Join(t.TempDir(), "sample.go")
	if err := os.WriteFile(path, []byte(sample), 0o644); err != nil {
		t.Fatal(err)
	}
	for line, want := range map[int]string{
		6: "one", 10: "f", 11: "f", 12: "f", 13: "f", 14: "f", 18: "x", 19: "x", 22: "h", 25: "h", 28: "h", 30: "short", 32: "z", 3: "", 1: "", 99: "",
	} {
		got := ""
		if d := parse(path, nil).functionAt("sample.f", line); d != nil {
			got = nameOfDeclaration(d)
		}
		if got != want {
			t.Errorf("line %d %q: got %q, want %q", line, strings.Split(sample+strings.Repeat("\n", 99), "\n")[line-1], got, want)
		}
	}
	if parse(path+".none", nil).functionAt("sample.f", 1) != nil {
		t.Errorf("a file that isn't there has declarations")
	}
}

func nameOfDeclaration(n ast.Node) string {
	switch n := n.(type) {
	case *ast.FuncDecl:
		return n.Name.Name
	case *ast.GenDecl:
		switch s := n.Specs[0].(type) {
		case *ast.TypeSpec:
			return s.Name.Name
		case *ast.ValueSpec:
			return s.Names[0].Name
		}
	}
	return ""
}

// TestLiterals: of several function literals on a line a function's name tells which one is meant.
func TestLiterals(t *testing.T) {
	path := filepath.Join(t.TempDir(), "sample.go")
	if err := os.WriteFile(path, []byte(sample), 0o644); err != nil {
		t.Fatal(err)
	}
	d := parse(path, nil)
	for function, want := range map[string]string{"sample.h.func2": "++", "sample.h.func3": "--", "sample.h": ""} {
		got := ""
		if lit, ok := d.functionAt(function, 26).(*ast.FuncLit); ok {
			got = lit.Body.List[0].(*ast.IncDecStmt).Tok.String()
		}
		if got != want {
			t.Errorf("%s: got %q, want %q", function, got, want)
		}
	}
}
