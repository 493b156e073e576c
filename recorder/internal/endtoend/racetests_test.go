package endtoend

import (
	"flag"
	"os"
	"os/exec"
	"path/filepath"
	"runtime"
	"sort"
	"strings"
	"testing"
)

var raceTests = flag.String("racetests", "", "the folder runtime/race/testdata of a Go distribution, whose tests are then compared")

// expected are the tests of Go's race detector whose verdict gorec doesn't share; the README
// explains each.
var expected = map[string]bool{
	"TestRaceChanCloseSend":       true,
	"TestRaceChanSendClose":       true,
	"TestRaceChanSendSelectClose": true,
	"TestRaceMutexOverwrite":      true,
}

// TestGoRaceTests runs each of the tests of Go's own race detector alone at five seeds:
// those that are named TestRace have a race, and TestNoRace none, nor is one predicted of them.
func TestGoRaceTests(t *testing.T) {
	requireJudge(t)
	if *raceTests == "" {
		t.Skip("no -racetests")
	}
	dir := t.TempDir()
	copyRaceTests(t, dir)
	program := filepath.Join(dir, "tests")
	build(t, dir, program, "-tests", ".")
	names := listTests(t, program)
	traces := map[string]string{}
	for _, name := range names {
		for _, seed := range []string{"1", "2", "3", "4", "5"} {
			traces[name+"."+seed] = recordTest(t, dir, program, name, seed)
		}
	}
	raced, otherwise := map[string]bool{}, map[string]bool{}
	for run, report := range askAll(t, "predict", traces) {
		name, _, _ := strings.Cut(run, ".")
		otherwise[name] = otherwise[name] || predicted(report)
		switch {
		case strings.Contains("\n"+report, "\nraces: "):
			raced[name] = raced[name] || races(report)
		case !strings.HasPrefix(report, "clean: "):
			t.Errorf("%s: %s", run, report)
		}
	}
	compare(t, names, raced)
	for _, name := range names {
		if strings.HasPrefix(name, "TestRace") && otherwise[name] && !raced[name] {
			t.Logf("%s: a race in another order alone", name)
		} else if otherwise[name] && !raced[name] {
			t.Errorf("%s: a race in another order", name)
		}
	}
	t.Logf("%d tests, %d traces", len(names), len(traces))
}

func compare(t *testing.T, names []string, raced map[string]bool) {
	same := 0
	for _, name := range names {
		wanted := strings.HasPrefix(name, "TestRace")
		switch {
		case raced[name] == wanted:
			same++
		case expected[name]:
			t.Logf("%s: race %v, as the README explains", name, raced[name])
		default:
			t.Errorf("%s: race %v", name, raced[name])
		}
	}
	t.Logf("%d of %d tests have Go's verdict", same, len(names))
}

// races: a race of the report isn't that of the package's initialization (the field x
// of regression_test.go), which each run has.
func races(report string) bool { return tells(report, "race on ") }

// predicted is the same of races of other orders.
func predicted(report string) bool { return tells(report, "predicted race on ") }

func tells(report, begin string) bool {
	for _, line := range strings.Split(report, "\n") {
		if strings.HasPrefix(line, begin) && !strings.HasPrefix(line, begin+"LogImpl_x: ") {
			return true
		}
	}
	return false
}

// copyRaceTests makes a module of the tests but for those with cgo.
func copyRaceTests(t *testing.T, dir string) {
	t.Helper()
	files, err := filepath.Glob(filepath.Join(*raceTests, "*_test.go"))
	if err != nil || len(files) == 0 {
		t.Fatalf("no tests in %s", *raceTests)
	}
	for _, f := range files {
		b, err := os.ReadFile(f)
		if err != nil {
			t.Fatal(err)
		}
		if strings.Contains(filepath.Base(f), "cgo") {
			continue
		}
		if err := os.WriteFile(filepath.Join(dir, filepath.Base(f)), b, 0o644); err != nil {
			t.Fatal(err)
		}
	}
	if err := os.WriteFile(filepath.Join(dir, "go.mod"), []byte("module example.com/racetests\n\n"+goLine()+"\n"), 0o644); err != nil {
		t.Fatal(err)
	}
}

// goLine is that of the version of Go which runs the tests.
func goLine() string {
	words := strings.Split(strings.TrimPrefix(runtime.Version(), "go"), ".")
	return "go " + words[0] + "." + words[1]
}

// listTests names the tests of a program that was built.
func listTests(t *testing.T, program string) []string {
	t.Helper()
	out, err := exec.Command(program, "-test.list", "^Test(No)?Race").Output()
	if err != nil {
		t.Fatal(err)
	}
	names := strings.Fields(string(out))
	sort.Strings(names)
	return names
}

// recordTest runs one test, which may end in any way, and answers the file with its trace.
func recordTest(t *testing.T, dir, program, name, seed string) string {
	t.Helper()
	trace := filepath.Join(dir, name+"."+seed+".gotrace")
	_, errs, _ := runIn(t, dir, "exec", "-gorace", stub(t), "-seed", seed, "-predict", "-o", trace, program,
		"-test.run", "^"+name+"$", "-test.timeout", "20s")
	if _, err := os.Stat(trace); err != nil {
		t.Fatalf("%s: %v\n%s", name, err, errs)
	}
	return trace
}
