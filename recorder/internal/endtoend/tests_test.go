package endtoend

import (
	"os"
	"path/filepath"
	"strings"
	"testing"
)

const tests = root + "/testdata/tests"

// TestTests records packages of tests, each of which tells at its head what races, and runs them all at once. Each race that is
// told there is found, and no other, and each test passes.
func TestTests(t *testing.T) {
	requireJudge(t)
	t.Parallel()
	kept := t.TempDir()
	out, errs, _ := runIn(t, tests, "test", "-count=1", "-gorace", finding(t), "-o", kept, "./...")
	if strings.Contains(out, "--- FAIL") || strings.Contains(out, "panic: ") {
		t.Errorf("%s%s", out, errs)
	}
	heads, err := filepath.Glob(tests + "/*/*_test.go")
	if err != nil || len(heads) == 0 {
		t.Fatal(heads, err)
	}
	b := newBatch()
	for _, head := range heads {
		name := filepath.Base(filepath.Dir(head))
		trace := filepath.Join(kept, "example.com_tests_"+name+".test.gotrace")
		if _, err := os.Stat(trace); err != nil {
			t.Errorf("%v\n%s%s", err, out, errs)
			continue
		}
		b.add(name, trace, readVerdict(t, head).check)
	}
	b.judge(t)
}

// TestStarted: the traces of tests that a test starts are judged too, and what is found in them is told once.
func TestStarted(t *testing.T) {
	t.Parallel()
	out, errs, status := runIn(t, tests, "test", "-count=1", "-gorace", finder(t, "racy"), "./starts")
	if status != 66 || strings.Count(out, "\nrace on racy: ") != 1 || strings.Count(out, ", which the program started:\n") != 1 {
		t.Errorf("status %d\n%s%s", status, out, errs)
	}
}

// TestGoFlags: the flags of go test do what they do there.
func TestGoFlags(t *testing.T) {
	t.Parallel()
	program := filepath.Join(t.TempDir(), "bank.test")
	for _, c := range []struct {
		words  string
		status int
		told   []string
	}{
		{"-cpu 1,2 -v -run Own ./bank", 0, []string{"own 0\n--- PASS: TestOwn (", "s)\n=== RUN   TestOwn\n"}},
		{"-shuffle 5 -v ./bank", 0, []string{"-test.shuffle 5\n"}},
		{"-covermode count -count 2 ./bank", 0, []string{"coverage: 100.0% of statements\n"}},
		{"-failfast -json -run Wrong ./wrong", 21, []string{`"Action":"fail","Package":"example.com/service/wrong","Test":"TestWrong"`}},
		{"-vet=all ./bank", 0, []string{"ok  \texample.com/service/bank\t"}},
		{"-short -parallel 3 -timeout 1m -trimpath -ldflags=-w ./bank -run Pay -args -own 3", 0, []string{"ok  \texample.com/service/bank\t"}},
		{"-benchtime 2x -bench . -run none ./store", 0, []string{"ok  \texample.com/service/store\t"}},
		{"-c -o " + program + " ./bank", 0, nil},
	} {
		out, errs, status := runService(t, nil, append([]string{"test", "-gorace", stub(t)}, strings.Fields(c.words)...)...)
		for _, told := range c.told {
			if !strings.Contains(out, told) {
				t.Errorf("%s: no %q\n%s%s", c.words, told, out, errs)
			}
		}
		if status != c.status {
			t.Errorf("%s: status %d\n%s%s", c.words, status, out, errs)
		}
	}
	if out, errs, status := runTool(t, "exec", "-gorace", stub(t), program, "-test.run", "Pay", "-test.v"); status != 0 || !strings.Contains(out, "--- PASS: TestPay") {
		t.Errorf("status %d\n%s%s", status, out, errs)
	}
}
