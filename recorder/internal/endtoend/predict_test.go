package endtoend

import (
	"bytes"
	"encoding/json"
	"fmt"
	"os"
	"os/exec"
	"path/filepath"
	"regexp"
	"strings"
	"sync"
	"testing"
)

// hiding has programs whose races the recorded order may hide, and others that have none, though a
// trace may not say all that they go by.
const hiding = root + "/testdata/predict"

var told = regexp.MustCompile(`(?m)^(?:predicted )?race on (\S+): `)

// TestPredictions records the programs at each seed, and has other orders looked for, then also those
// in which critical sections and messages change places. No program without a race is told of, and of
// one with a race no other variable; of the racy runs at least 85 in 100 are told, most of them by a
// prediction.
func TestPredictions(t *testing.T) {
	requireJudge(t)
	t.Parallel()
	traces, hides := recordHiding(t)
	lookForOtherOrders(t, "predict", traces, hides)
	if *judgeFlag != "unproved" { // which takes minutes each time
		lookForOtherOrders(t, "predict --turned", traces, hides)
	}
}

func lookForOtherOrders(t *testing.T, command string, traces map[string]string, hides map[string][]string) {
	t.Helper()
	runs, found, predictions := 0, 0, 0
	var missed []string
	for run, report := range askAll(t, command, traces) {
		name, _, _ := strings.Cut(run, ".")
		names := told.FindAllStringSubmatch(report, -1)
		for _, m := range names {
			if entry(hides[name], m[1]) == "" {
				t.Errorf("%s, %s: %s is told\n%s", command, run, m[1], report)
			}
		}
		if !strings.Contains(report, "\npredicted: ") {
			t.Errorf("%s, %s: nothing was predicted\n%s", command, run, report)
		}
		if len(hides[name]) == 0 {
			continue
		}
		runs++
		switch {
		case len(names) == 0:
			missed = append(missed, run)
			continue
		case strings.Contains(report, "predicted race on "):
			predictions++
		}
		found++
	}
	t.Logf("%s: of %d racy runs %d are told, %d by predictions; not told: %v", command, runs, found, predictions, missed)
	if found*100 < runs*85 || predictions*2 < runs {
		t.Errorf("%s: of %d racy runs %d are told, %d by predictions; not told: %v", command, runs, found, predictions, missed)
	}
}

// recordHiding answers the traces by their runs, and what each program hides.
func recordHiding(t *testing.T) (traces map[string]string, hides map[string][]string) {
	t.Helper()
	traces, hides = map[string]string{}, map[string][]string{}
	built := buildAll(t, hiding)
	var mu sync.Mutex
	eachOf(t, hiding, func(t *testing.T, name string) {
		hidden := readHidden(t, filepath.Join(hiding, name, "main.go"))
		for _, seed := range seeds {
			trace := record(t, hiding, filepath.Join(built, name), seed, "0", "-predict")
			mu.Lock()
			hides[name], traces[name+"."+seed] = hidden, trace
			mu.Unlock()
		}
	})
	return traces, hides
}

// readHidden are the variables that a program's head says race, at least one of them in any run;
// none of one that is clean.
func readHidden(t *testing.T, path string) []string {
	t.Helper()
	b, err := os.ReadFile(path)
	if err != nil {
		t.Fatal(err)
	}
	head, _, _ := strings.Cut(string(b), "\n")
	switch what, list, _ := strings.Cut(strings.TrimPrefix(head, "// "), ": "); what {
	case "clean":
		return nil
	case "hides":
		return strings.Split(list, ", ")
	}
	t.Fatalf("%s: no verdict: %s", path, head)
	return nil
}

// TestRunPredict: gorec tells a predicted race as it tells others, and how the other order is drawn;
// that order is a trace that ends with the race.
func TestRunPredict(t *testing.T) {
	requireJudge(t)
	if *judgeFlag == "unproved" {
		t.Skip("the judge is no command of its own")
	}
	t.Parallel()
	trace := filepath.Join(t.TempDir(), "run.gotrace")
	var out []byte
	for i := 0; i < 10 && !bytes.Contains(out, []byte("\nclean: ")); i++ { // on a busy machine the second goroutine may be first
		cmd := gorecCommand("run", "-predict", "-seed", "1", "-o", trace, "-gorace", *judgeFlag, "./mapput")
		cmd.Dir = hiding
		out, _ = cmd.CombinedOutput()
		if status := cmd.ProcessState.ExitCode(); status != 66 {
			t.Fatalf("status %d\n%s", status, out)
		}
	}
	wanted := regexp.MustCompile(`(?s)\nclean: \d+ events, \d+ accesses
predicted race on seen: write by (g\d) at mapput/main.go:12 \(event (\d+)\), read by (g\d) at mapput/main.go:18 \(event (\d+)\)
in another order: (g\d) stops before event (\d+), (g\d) goes on to event (\d+)
g\d's write of seen: without a lock, after its start at side/side.go:14
g\d's read of seen for a change: without a lock, after receive from sem at mapput/main.go:17
g\d was started by main at side/side.go:14
.*
Write by g\d:
.*Previous write by g\d:
.*
predicted: 1
gorec: to see the other order: .* predict seen < .*run.gotrace \| .* draw seen\n$`)
	m := wanted.FindSubmatch(out)
	if m == nil {
		t.Fatalf("got\n%s", out)
	}
	if m := fmt.Sprintf("%q", m[1:5]); m != fmt.Sprintf("%q", wanted.FindSubmatch(out)[5:]) {
		t.Errorf("another pair\n%s", out)
	}
	words := strings.Fields(*judgeFlag)[0]
	shown := exec.Command("sh", "-c", words+" predict seen <"+trace+" | "+words+" check")
	report, _ := shown.CombinedOutput()
	if !strings.HasPrefix(string(report), "race on seen: ") {
		t.Errorf("the other order\n%s", report)
	}
}

// TestTurnedIsPassedOn: the judge itself is asked for orders in which critical sections change places.
func TestTurnedIsPassedOn(t *testing.T) {
	t.Parallel()
	judge := filepath.Join(t.TempDir(), "judge")
	if err := os.WriteFile(judge, []byte("#!/bin/sh\ncat >/dev/null\necho \"clean: by $*\"\n"), 0o755); err != nil {
		t.Fatal(err)
	}
	out, errs, status := runIn(t, hiding, "run", "-predict", "-turned", "-gorace", judge, "./counted")
	if status != 0 || out != "clean: by predict --turned\n" {
		t.Errorf("status %d\n%s%s", status, out, errs)
	}
}

// predictor is a judge that predicts a race on a variable where a trace has two writes of it, and
// says so only if it is asked to predict.
func predictor(t *testing.T, variable string) string {
	t.Helper()
	path := filepath.Join(t.TempDir(), "predictor")
	script := `#!/bin/sh
[ "$1" = predict ] || { cat >/dev/null; echo "clean: by $*"; exit 0; }
exec awk -v x=` + variable + ` '
NR == 1 || NF < 3 || $1 ~ /^(goroutine|var|chan|mutex|rwmutex|once)$/ { next }
{ event++ }
$1 == "go" && $2 == who { who = "" }
$1 == "write" && $3 == x && !who { who = $2; first = "write by " $2 " at " $5 " (event " event ")"; next }
$1 == "write" && $3 == x && $2 != who && !told { told = first ", write by " $2 " at " $5 " (event " event ")" }
END { print "clean: " event " events, 0 accesses"; if (told) { print "predicted race on " x ": " told; print "predicted: 1"; exit 66 }; print "predicted: 0" }'
`
	if err := os.WriteFile(path, []byte(script), 0o755); err != nil {
		t.Fatal(err)
	}
	return path
}

// TestPredictFlag: the judge is asked to predict where it is wanted, a prediction has the status of a
// race, and where there is none that of a clean run.
func TestPredictFlag(t *testing.T) {
	t.Parallel()
	judge := predictor(t, "total")
	trace := filepath.Join(t.TempDir(), "run.gotrace")
	for _, c := range []struct {
		args   []string
		status int
		out    string
	}{
		{[]string{"-predict", "-o", trace, "./beforelock"}, 66, `(?s)^clean: \d+ events, 0 accesses
predicted race on total: write by g1 at beforelock/main.go:\d+ \(event \d+\), write by g2 at beforelock/main.go:\d+ \(event \d+\)
in another order: g1 stops before event \d+, g2 goes on to event \d+
g1's write of total: without a lock, after its start at .*
==================
predicted: 1
gorec: to see the other order: \S+ predict total < \S+ \| \S+ draw total
$`},
		{[]string{"-o", trace, "./beforelock"}, 0, `^clean: by check\n$`},
		{[]string{"-predict", "-o", trace, "./counted"}, 0, `^clean: \d+ events, 0 accesses\npredicted: 0\n$`},
		{[]string{"-predict", "-turned", "-o", trace, "./beforelock"}, 66, `\ngorec: to see the other order: \S+ predict total --turned < \S+ \| \S+ draw total\n$`},
		{[]string{"-predict", "-format", "1", "./beforelock"}, 3, `^$`},
		{[]string{"-turned", "./beforelock"}, 3, `^$`},
	} {
		out, errs, status := runIn(t, hiding, append([]string{"run", "-seed", "1", "-gorace", judge}, c.args...)...)
		if status != c.status || !regexp.MustCompile(c.out).MatchString(out) {
			t.Errorf("%v: status %d\n%s%s", c.args, status, out, errs)
		}
	}
}

// TestPredictJSON: a predicted race is an object of its own kind, and counts beside the races.
func TestPredictJSON(t *testing.T) {
	t.Parallel()
	out, errs, status := runIn(t, hiding, "run", "-json", "-predict", "-seed", "1", "-o", filepath.Join(t.TempDir(), "t"),
		"-gorace", predictor(t, "total"), "./beforelock")
	type object struct {
		Action    string
		Race      any
		Predicted *struct {
			Variable, Order string
			Accesses        []struct {
				Kind, Goroutine, Place, Behind string
				Event                          int
				Stack                          []any
			}
		}
		Verdict *struct{ Status, Races, Predicted int }
	}
	var last, prediction object
	for _, line := range strings.Split(strings.TrimSpace(out), "\n") {
		last = object{}
		if err := json.Unmarshal([]byte(line), &last); err != nil {
			t.Fatalf("%v: %s", err, line)
		}
		if last.Race != nil {
			t.Errorf("a race: %s", line)
		}
		if last.Action == "predicted" {
			prediction = last
		}
	}
	if v := last.Verdict; status != 66 || last.Action != "racing" || v == nil || v.Status != 66 || v.Races != 0 || v.Predicted != 1 {
		t.Errorf("status %d, %+v\n%s%s", status, last, out, errs)
	}
	p := prediction.Predicted
	if p == nil || p.Variable != "total" || len(p.Accesses) != 2 || !strings.HasPrefix(p.Order, "in another order: g1 stops before event ") {
		t.Fatalf("got %s", out)
	}
	if a := p.Accesses[0]; a.Kind != "write" || a.Event == 0 || !strings.HasPrefix(a.Place, "beforelock/") || a.Behind == "" || len(a.Stack) == 0 {
		t.Errorf("got %+v", a)
	}
}

// TestPredictOfTests: a package with predicted races alone fails too, and they are counted.
func TestPredictOfTests(t *testing.T) {
	t.Parallel()
	out, errs, status := runService(t, nil, "test", "-predict", "-o", t.TempDir(), "-gorace", predictor(t, "Store_sold"), "./...")
	if status != 66 || !strings.Contains(out, "FAIL\texample.com/service/store\t") || !strings.Contains(out, "--- FAIL: TestSell") ||
		!strings.Contains(errs, "gorec: example.com/service/store: races: 0, predicted: 1\n") {
		t.Errorf("status %d\n%s%s", status, out, errs)
	}
}

// TestPredictInSegments: of each segment other orders are looked for; a prediction at places that
// were told is told no more, but counts.
func TestPredictInSegments(t *testing.T) {
	t.Parallel()
	out, errs, status := runTool(t, "run", "-predict", "-records", "1024", "-seed", "0", "-gorace", predictor(t, "total"), "./rounds")
	m := regexp.MustCompile(`gorec: of all traces predicted: (\d+), not searched: 0 variables\n`).FindStringSubmatch(out)
	if status != 66 || strings.Count(out, "predicted race on total: ") != 1 || m == nil {
		t.Fatalf("status %d\n%s%s", status, out, errs)
	}
	racing := regexp.MustCompile(`gorec: judged in \d+ segments, (\d+) of them with races`).FindStringSubmatch(out)
	if !strings.Contains(errs, ": only races at places that were reported before\n") || racing == nil || racing[1] != m[1] || m[1] == "1" {
		t.Errorf("%s segments with races that were predicted\n%s%s", m[1], out, errs)
	}
}
