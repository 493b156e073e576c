package endtoend

import (
	"os"
	"path/filepath"
	"regexp"
	"strings"
	"testing"
)

// TestStatuses: 0 is said only of a whole trace of a program that didn't fail; what the judge
// finds comes before both.
func TestStatuses(t *testing.T) {
	t.Parallel()
	clean := stub(t)
	racing := judgeSaying(t, filepath.Join(t.TempDir(), "racing"), "races: 1", 66)
	illegal := judgeSaying(t, filepath.Join(t.TempDir(), "illegal"), "illegal: event 5: stale read", 1)
	silent := judgeSaying(t, filepath.Join(t.TempDir(), "silent"), "races, or none", 0)
	for _, c := range []struct {
		judge, words string
		status       int
		told         string
	}{
		{clean, "run ./runs", 0, "ran\nclean: "},
		{clean, "run ./cut", 20, "gorec: the trace is cut off after "},
		{racing, "run ./cut", 66, "gorec: the trace is cut off after "},
		{clean, "run ./fails", 21, "gorec: the program ended with exit status 1\n"},
		{racing, "run ./fails racing", 66, "gorec: the program ended with exit status 1\n"},
		{illegal, "run ./fails", 1, "gorec: the program ended with exit status 1\n"},
		{silent, "run ./runs", 3, " ended with 0 and didn't say that it is clean\n"},
		{clean, "run -v -race -tags extra ./tagged", 0, "extra\n"},
		{clean, "run ./library", 3, "gorec: "},
		{clean, "run ./runs ./fails", 0, "ran\n"}, // the second word is the program's
		{clean, "exec /bin/true", 3, "gorec: the program left no record: it wasn't built by gorec"},
		{clean, "test ./fails", 21, "--- FAIL: TestFails"},
		{clean, "test ./fails -test.run Fails", 21, "--- FAIL: TestFails"},
		{clean, "test -run Passes ./fails", 0, "ok  \t"},
		{clean, "test ./fails -run Passes -v -race", 0, "--- PASS: TestPasses"},
		{racing, "test ./fails -run Passes", 66, "FAIL\texample.com/commands/fails\t"},
		{illegal, "test ./fails -run Passes", 1, "FAIL\texample.com/commands/fails\t"},
		{silent, "test ./fails -run Passes", 3, "not judged\n"},
		{clean, "test ./fails -none", 21, "flag provided but not defined: -none"},
		{clean, "test -exec env ./fails", 3, "gorec: test: -exec: the programs are run by gorec exec"},
		{clean, "test ./none", 3, "none"},
		{clean, "build ./runs", 3, "-o has to name the program"},
	} {
		args := strings.Fields(c.words)
		if args[0] != "build" {
			args = append([]string{args[0], "-gorace", c.judge}, args[1:]...)
		}
		out, errs, status := runTool(t, args...)
		if status != c.status || !strings.Contains(out+errs, c.told) {
			t.Errorf("%s: status %d, not %d\n%s%s", c.words, status, c.status, out, errs)
		}
	}
}

// TestUnjudged: a trace that -o names is there though it couldn't be judged.
func TestUnjudged(t *testing.T) {
	t.Parallel()
	trace := filepath.Join(t.TempDir(), "run.gotrace")
	judge := judgeSaying(t, filepath.Join(t.TempDir(), "silent"), "races, or none", 0)
	out, errs, status := runTool(t, "run", "-o", trace, "-gorace", judge, "./runs")
	text, err := os.ReadFile(trace)
	if status != 3 || err != nil || !strings.HasPrefix(string(text), "gotrace 1\n") {
		t.Errorf("status %d, %v\n%s%s%s", status, err, text, out, errs)
	}
}

// TestRacesBeforeAFailure: what is found in a run's first part counts, though a later one can't be
// judged. The first is judged twice: without names, and with them.
func TestRacesBeforeAFailure(t *testing.T) {
	t.Parallel()
	judge := filepath.Join(t.TempDir(), "once")
	script := `#!/bin/sh
cat >/dev/null
[ -e ` + judge + `.twice ] && kill -KILL $$
[ -e ` + judge + `.asked ] && touch ` + judge + `.twice
touch ` + judge + `.asked
echo 'race on total: write by g1 at a.go:1 (event 1), write by g2 at a.go:2 (event 2)'
exit 66
`
	if err := os.WriteFile(judge, []byte(script), 0o755); err != nil {
		t.Fatal(err)
	}
	out, errs, status := runTool(t, "run", "-records", "1024", "-gorace", judge, "./rounds")
	if status != 66 || !strings.Contains(out, "gorec: to see why: ") || !strings.Contains(errs, "gorec: the trace wasn't judged: signal: killed\n") {
		t.Errorf("status %d\n%s%s", status, out, errs)
	}
}

// TestRacesOfSegments: what races in each segment is kept and told of the first one alone, but counts.
func TestRacesOfSegments(t *testing.T) {
	t.Parallel()
	race := "race on total: write by g1 at a.go:1 (event 1), write by g2 at a.go:2 (event 2)"
	judge := judgeSaying(t, filepath.Join(t.TempDir(), "judge"), race, 66)
	out, errs, status := runTool(t, "run", "-json", "-records", "1024", "-gorace", judge, "./rounds")
	m := regexp.MustCompile(`"Races":(\d+)`).FindStringSubmatch(out)
	if status != 66 || strings.Count(out, `"Action":"race"`) != 1 || m == nil || m[1] == "0" || m[1] == "1" {
		t.Errorf("status %d\n%s%s", status, out, errs)
	}
}
