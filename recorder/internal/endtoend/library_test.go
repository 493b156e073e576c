package endtoend

import (
	"flag"
	"os"
	"os/exec"
	"path/filepath"
	"regexp"
	"sort"
	"strings"
	"testing"
)

var library = flag.Bool("library", true, "run the tests of Go's own packages, recorded")

// standard are packages of Go's own library whose tests are recorded. None has a race.
var standard = strings.Fields("container/list context encoding/csv errors io io/fs log net/mail os/signal sort text/template")

// TestLibrary runs tests of packages of Go's library recorded: each passes or fails as it does plain, and no trace is illegal.
func TestLibrary(t *testing.T) {
	if !*library {
		t.Skip("not wanted")
	}
	requireJudge(t)
	t.Parallel()
	plain := exec.Command("go", append(strings.Fields("test -short -v -count=1 -vet=off"), standard...)...)
	plain.Dir = t.TempDir()
	want, _ := plain.CombinedOutput()
	kept := t.TempDir()
	words := append(strings.Fields("test -short -v -count=1 -gorace "+finding(t)+" -o "+kept), standard...)
	got, errs, _ := runIn(t, plain.Dir, words...)
	if got, want := results(got), results(string(want)); got != want || strings.Count(want, "\n") < 100 {
		t.Errorf("plain:\n%s\nrecorded:\n%s\n%s", want, got, errs)
	}
	traces := map[string]string{}
	for _, path := range standard {
		trace := filepath.Join(kept, strings.ReplaceAll(path, "/", "_")+".test.gotrace")
		if _, err := os.Stat(trace); err != nil {
			t.Errorf("%v\n%s%s", err, got, errs)
			continue
		}
		traces[path] = trace
	}
	for path, report := range judgeAll(t, traces) {
		if !strings.HasPrefix(report, "clean: ") {
			t.Errorf("%s: %s", path, report)
		}
	}
}

// finding is a judge that finds something in each trace, so that each is kept.
func finding(t *testing.T) string {
	t.Helper()
	return judgeSaying(t, filepath.Join(t.TempDir(), "finding"), "races: 1", 66)
}

var result = regexp.MustCompile(`(?m)^--- (?:PASS|FAIL|SKIP): \S+`)

// results are the lines that tell how each test ended, but for tests that count allocations, since to record allocates.
func results(out string) string {
	var lines []string
	for _, line := range result.FindAllString(out, -1) {
		if !strings.Contains(line, "Alloc") {
			lines = append(lines, line)
		}
	}
	sort.Strings(lines)
	return strings.Join(lines, "\n")
}
