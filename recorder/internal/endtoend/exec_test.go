package endtoend

import (
	"encoding/json"
	"os"
	"os/exec"
	"path/filepath"
	"strings"
	"testing"
)

// TestRacingPackage: of several packages those with races fail, and the report names the test; go test's own output stays.
func TestRacingPackage(t *testing.T) {
	t.Parallel()
	out, errs, status := runService(t, nil, "test", "-o", t.TempDir(), "-gorace", finder(t, "Store_sold"), "./...")
	for _, want := range []string{
		"ok  \texample.com/service/bank\t", "FAIL\texample.com/service/broken [build failed]\n", "?   \texample.com/service/plain\t[no test files]\n",
		"\nin test TestSell: the race on Store_sold\n", "--- FAIL: TestSell (0.00s)\n    race on Store_sold: ",
		"FAIL\texample.com/service/store\t", "--- FAIL: TestWrong",
	} {
		if !strings.Contains(out, want) {
			t.Errorf("no %q in\n%s%s", want, out, errs)
		}
	}
	if status != 66 || !strings.Contains(errs, "gorec: example.com/service/store: races: 1\n") {
		t.Errorf("status %d\n%s", status, errs)
	}
}

// TestJSONOfTests: -json is go test's own, by which a test with a race has failed.
func TestJSONOfTests(t *testing.T) {
	t.Parallel()
	out, errs, _ := runService(t, nil, "test", "-json", "-o", t.TempDir(), "-gorace", finder(t, "Store_sold"), "./bank", "./store")
	last := map[string]string{}
	for _, line := range strings.Split(strings.TrimSpace(out), "\n") {
		var e struct{ Action, Package, Test string }
		if err := json.Unmarshal([]byte(line), &e); err != nil {
			t.Fatalf("%v: %s", err, line)
		}
		if e.Action != "output" {
			last[e.Package+" "+e.Test] = e.Action
		}
	}
	for name, want := range map[string]string{
		"bank ": "pass", "bank TestPay": "pass", "store ": "fail", "store TestSell": "fail",
	} {
		if got := last["example.com/service/"+name]; got != want {
			t.Errorf("%s: %s\n%s%s", name, got, out, errs)
		}
	}
}

// TestCoverage: a profile is written, of counters that don't race.
func TestCoverage(t *testing.T) {
	t.Parallel()
	profile := filepath.Join(t.TempDir(), "c.out")
	out, errs, status := runService(t, nil, "test", "-race", "-coverprofile", profile, "-count=2", "-gorace", stub(t), "./bank")
	b, err := os.ReadFile(profile)
	if status != 0 || err != nil || !strings.HasPrefix(string(b), "mode: atomic\n") || !strings.Contains(out, "coverage: ") {
		t.Errorf("status %d, %v\n%s%s%s", status, err, b, out, errs)
	}
}

const itself = `package main

import (
	"fmt"
	"os"
	"os/exec"
	"strings"
)

func main() {
	for _, v := range os.Environ() {
		if strings.HasPrefix(v, "GO") && !strings.HasPrefix(v, "GOREC_") && !strings.HasPrefix(v, "GOCACHE=") {
			fmt.Println("variable", v)
		}
	}
	if len(os.Args) > 1 {
		n, done := 0, make(chan bool)
		go func() { n++; close(done) }(); n++ // in one line, so that the places are the same whoever is first
		<-done
		return
	}
	for i := 0; i < 2; i++ {
		if err := exec.Command(os.Args[0], "child").Run(); err != nil {
			fmt.Println(err)
		}
	}
}
`

// TestChildren: what a program does that starts itself again is judged too, by its own trace; a race is told once. The
// program's environment is the user's.
func TestChildren(t *testing.T) {
	t.Parallel()
	dir := t.TempDir()
	writeFiles(t, dir, map[string]string{"go.mod": "module example.com/itself\n\ngo 1.19\n", "main.go": itself})
	out, errs, status := runIn(t, dir, "run", "-gorace", finder(t, "n"), ".")
	if status != 66 || strings.Count(out, ", which the program started:\n") != 1 || strings.Count(out, "\nrace on n: ") != 1 ||
		!strings.Contains(errs, "gorec: processes that the program started, which are judged too: 2\n") {
		t.Errorf("status %d\n%s%s", status, out, errs)
	}
	for _, line := range strings.Split(out, "\n") {
		if v := strings.TrimPrefix(line, "variable "); v != line && os.Getenv(strings.SplitN(v, "=", 2)[0]) == "" {
			t.Errorf("the program has the variable %s", v)
		}
	}
}

// TestOtherChildren: another recorded program that a program starts isn't judged by the file of the one that has started it.
func TestOtherChildren(t *testing.T) {
	t.Parallel()
	dir := t.TempDir()
	writeFiles(t, dir, map[string]string{
		"go.mod":  "module example.com/starter\n\ngo 1.19\n",
		"main.go": "package main\n\nimport (\n\t\"os\"\n\t\"os/exec\"\n)\n\nfunc main() { exec.Command(os.Args[1]).Run() }\n",
		"started/main.go": "package main\n\nfunc main() {\n\tn, done := 0, make(chan bool)\n" +
			"\tgo func() { n++; close(done) }()\n\tn++\n\t<-done\n}\n",
	})
	programs := filepath.Join(dir, "built") + string(filepath.Separator)
	build(t, dir, programs, "./...")
	out, errs, status := runIn(t, dir, "exec", "-gorace", finder(t, "n"), programs+"starter", programs+"started")
	if status != 0 || !strings.Contains(errs, ", which the program started, is of another program, and isn't judged\n") {
		t.Errorf("status %d\n%s%s", status, out, errs)
	}
}

// TestTrace: a program that is run elsewhere leaves a log, of which a trace is made.
func TestTrace(t *testing.T) {
	t.Parallel()
	program := filepath.Join(t.TempDir(), "fails")
	build(t, root+"/testdata/commands", program, "./fails")
	cmd := exec.Command(program, "races")
	cmd.Env = append(os.Environ(), "GOREC_LOG="+program+".log")
	cmd.Run()
	for _, c := range []struct {
		args   []string
		status int
		out    string
	}{
		{[]string{program + ".log", program}, 0, "gotrace 1\n"},
		{[]string{"-predict", program + ".log", program}, 0, "gotrace 2\n"},
		{[]string{"-format", "3", program + ".log", program}, 3, ""},
		{[]string{program, program}, 3, ""},
	} {
		out, errs, status := runTool(t, append([]string{"trace"}, c.args...)...)
		if status != c.status || !strings.HasPrefix(out, c.out) || c.out != "" && !strings.Contains(out, "\nwrite main n ") {
			t.Errorf("%v: status %d\n%s%s", c.args, status, out, errs)
		}
	}
}
