package endtoend

import (
	"fmt"
	"os"
	"path/filepath"
	"regexp"
	"strings"
	"sync"
	"testing"
)

const programs = root + "/testdata/programs"

var seeds = []string{"1", "2", "3"}

// batch has traces that are judged at once, each with what its report has to be.
type batch struct {
	sync.Mutex
	traces map[string]string // by the run's name
	checks map[string]func(report string) error
	clean  map[string]string // traces for predictions, of programs that have no race
}

func newBatch() *batch {
	return &batch{traces: map[string]string{}, checks: map[string]func(string) error{}, clean: map[string]string{}}
}

// add adds a trace that is checked.
func (b *batch) add(run, trace string, check func(string) error) {
	b.Lock()
	defer b.Unlock()
	b.traces[run] = trace
	b.checks[run] = check
}

// addClean adds a trace without a race, in which other orders are looked for too.
func (b *batch) addClean(run, trace string) {
	b.Lock()
	defer b.Unlock()
	b.clean[run] = trace
}

// judge compares the reports on all traces with what they have to be.
func (b *batch) judge(t *testing.T) {
	t.Helper()
	for run, report := range judgeAll(t, b.traces) {
		if err := b.checks[run](report); err != nil {
			t.Errorf("%s: %v\n%s", run, err, report)
		}
	}
	command, end := "predict", "\npredicted: 0\n"
	if *judgeFlag == "unproved" { // to predict takes minutes then
		command, end = "check", "\n"
	}
	for run, report := range askAll(t, command, b.clean) {
		if !strings.HasPrefix(report, "clean: ") || !strings.HasSuffix(report, end) {
			t.Errorf("%s: not clean, or a race is predicted\n%s", run, report)
		}
	}
}

// TestRecordings records the example programs at each seed, for both versions of a trace. Each race that a program tells at
// its head is found, and no other, and no trace is illegal. Of a program without a race none is predicted.
func TestRecordings(t *testing.T) {
	requireJudge(t)
	t.Parallel()
	b, built := newBatch(), buildAll(t, programs)
	eachOf(t, programs, func(t *testing.T, name string) {
		want, program := readVerdict(t, filepath.Join(programs, name, "main.go")), filepath.Join(built, name)
		defer os.Remove(program)
		b.add(name+".1", record(t, programs, program, "1", want.status), want.check)
		for _, seed := range seeds {
			switch run := name + "." + seed + " for version 2"; {
			case len(want.races) == 0:
				b.addClean(run, record(t, programs, program, seed, want.status, "-predict"))
			case seed != "1":
				b.add(run, record(t, programs, program, seed, want.status, "-format=2"), want.check)
			}
		}
	})
	b.judge(t)
}

// verdict is what a program's head tells: the variables that race in each run, those that
// may, and the status that the program ends with. A variable that has the name of the place
// where it is met first has several, with | between them.
type verdict struct {
	races, perhaps []string
	status         string
}

func readVerdict(t *testing.T, path string) verdict {
	t.Helper()
	b, err := os.ReadFile(path)
	if err != nil {
		t.Fatal(err)
	}
	v := verdict{status: "0"}
	head, _, _ := strings.Cut(string(b), "\n\n")
	for _, line := range strings.Split(head, "\n") {
		what, list, _ := strings.Cut(strings.TrimPrefix(line, "// "), ": ")
		switch what {
		case "clean", "why": // the second says why it is so
		case "races":
			must, may, _ := strings.Cut(list, "; perhaps: ")
			v.races = strings.Split(must, ", ")
			v.perhaps = strings.Split(may, ", ")
		case "status":
			v.status = list
		default:
			t.Fatalf("%s: no verdict: %s", path, line)
		}
	}
	return v
}

var (
	raced  = regexp.MustCompile(`(?m)^race on (\S+): `)
	number = regexp.MustCompile(`_\d+$`) // of another variable with the same name
)

// check compares a report with the verdict.
func (v verdict) check(report string) error {
	if len(v.races) == 0 {
		if !strings.HasPrefix(report, "clean: ") {
			return fmt.Errorf("not clean")
		}
		return nil
	}
	found := map[string]bool{}
	for _, m := range raced.FindAllStringSubmatch(report, -1) {
		known := entry(v.races, m[1])
		if known == "" && entry(v.perhaps, m[1]) == "" {
			return fmt.Errorf("a race on %s", m[1])
		}
		found[known] = true
	}
	for _, name := range v.races {
		if !found[name] {
			return fmt.Errorf("no race on %s", name)
		}
	}
	return nil
}

// entry is the one of a list that a variable's name stands for.
func entry(list []string, name string) string {
	for _, e := range list {
		for _, n := range strings.Split(e, "|") {
			if n == name || n == number.ReplaceAllString(name, "") {
				return e
			}
		}
	}
	return ""
}
