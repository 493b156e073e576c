package endtoend

import (
	"os/exec"
	"path/filepath"
	"strings"
	"testing"
)

// TestTags: the program is built with the tags with which it was listed.
func TestTags(t *testing.T) {
	t.Parallel()
	for _, c := range []struct {
		flags, word string
		more        []string
	}{
		{"", "plain\n", nil}, {"-tags=extra", "extra\n", nil}, {"-tags=other", "extra\n", []string{"-tags", "extra"}},
	} {
		words := append(append([]string{"run", "-gorace", stub(t)}, c.more...), "./tagged")
		_, errs, status := runWith(t, root+"/testdata/commands", []string{"GOFLAGS=" + c.flags}, words...)
		if status != 0 || !strings.HasPrefix(errs, c.word) {
			t.Errorf("%s %v: status %d\n%s", c.flags, c.more, status, errs)
		}
	}
}

// TestFiles: a program that is named by its files may import what is internal where they are, and is
// built whatever they say of builds.
func TestFiles(t *testing.T) {
	t.Parallel()
	for file, word := range map[string]string{"inner/main.go": "2\n", "constrained/main_plan9.go": "17\n"} {
		out, errs, status := runTool(t, "run", "-gorace", stub(t), file)
		if status != 0 || !strings.HasPrefix(errs, word) {
			t.Errorf("%s: status %d\n%s%s", file, status, out, errs)
		}
	}
}

// TestSeveralPrograms: none of several is run.
func TestSeveralPrograms(t *testing.T) {
	t.Parallel()
	out, errs, status := runTool(t, "run", "-gorace", stub(t), "./...")
	if status != 3 || out != "" || !strings.Contains(errs, " are programs both; name one\n") {
		t.Errorf("status %d\n%s%s", status, out, errs)
	}
}

// cgoProgram calls C, by which it gets values that Go's goroutines race for.
var cgoProgram = map[string]string{
	"go.mod": "module example.com/own\n\ngo 1.19\n",
	"main.go": `package main

import (
	"fmt"

	"example.com/own/c"
)

var n, m int

func main() {
	done := make(chan bool)
	go func() { n++; n += c.One(); c.Call(func() { m++ }); done <- true }()
	n++ // before any call of C, which Go takes for an order between all calls of C
	n += c.One()
	c.Call(func() { m++ })
	<-done
	fmt.Println(n > 0, m > 0)
}
`,
	"c/c.go": `package c

/*
static int one(void) { return 1; }

void call(void);
static void back(void) { call(); }
*/
import "C"

import "sync"

var (
	mu      sync.Mutex
	pending func()
)

func One() int { return int(C.one()) }

// Call calls f by way of C.
func Call(f func()) {
	mu.Lock()
	defer mu.Unlock()
	pending = f
	C.back()
}

//export call
func call() { pending() }
`,
	"c/c_test.go": "package c\n\nimport \"testing\"\n\nvar tried int\n\nfunc TestOne(t *testing.T) {\n\tdone := make(chan bool)\n\tgo func() { tried += One(); done <- true }()\n\ttried++\n\t<-done\n}\n",
}

// TestCgo: in a program with cgo what Go's code does is recorded, also where C calls it.
func TestCgo(t *testing.T) {
	requireJudge(t)
	t.Parallel()
	if _, err := exec.LookPath("gcc"); err != nil {
		t.Skip("no C compiler, which cgo needs: ", err)
	}
	dir := t.TempDir()
	writeFiles(t, dir, cgoProgram)
	traces := map[string]string{}
	for variable, words := range map[string][]string{"n": {"run", "."}, "tried": {"test", "./c"}} {
		traces[variable] = filepath.Join(dir, variable+".gotrace")
		words = append([]string{words[0], "-gorace", stub(t), "-o", traces[variable]}, words[1:]...)
		if out, errs, status := runWith(t, dir, []string{"CGO_ENABLED=1"}, words...); status != 0 {
			t.Fatalf("%v: status %d\n%s%s", words, status, out, errs)
		}
	}
	for variable, report := range judgeAll(t, traces) {
		if err := (verdict{races: []string{variable}}).check(report); err != nil {
			t.Errorf("%v\n%s", err, report)
		}
	}
}
