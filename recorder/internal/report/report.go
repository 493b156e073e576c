// Package report has what the judge tells of a trace: Read takes it apart, Learn adds what is known of the accesses, and Tell
// writes all of it.
package report

import (
	"fmt"
	"io"
	"os"
	"regexp"
	"sort"
	"strconv"
	"strings"

	"gorace.local/recorder/internal/trace"
	"gorace.local/recorder/internal/translate"
)

// An Access is one of the two of a race, and what is known of it.
type Access struct {
	Kind, Goroutine, Place string
	Event                  int
	Change                 bool             `json:",omitempty"` // the read stands for a change
	Test                   string           `json:",omitempty"` // that it belongs to
	Behind                 string           // what it held, and last synchronized by
	Stack                  []translate.Call `json:",omitempty"`
	Started                *Start           `json:",omitempty"` // unless it is main

	leftOut []string // the locks it held that the trace leaves out
}

// A Start is where a goroutine was started.
type Start struct {
	By    string           `json:",omitempty"` // nobody where it was in an earlier segment
	Place string           `json:",omitempty"` // none where code that isn't recorded started it
	Stack []translate.Call `json:",omitempty"`
}

// A Race is one of a report.
type Race struct {
	Variable string
	Accesses [2]Access
	Order    string `json:",omitempty"` // of a predicted one: how another run comes to it

	line string // by which the judge tells it
}

// A Report is what the judge tells of a trace. The judge predicts races of other orders of a run, in which each goroutine does
// what was recorded of it, up to where it stops.
type Report struct {
	Status           int    // that the judge ended with
	Text             string // of the recorded order
	IsClean          bool
	All              []Race // those of the recorded order first
	Races, Predicted []Race // the two parts of these
	NotSearched      int    // so many variables, in other orders
	Summary          *trace.Summary

	afterPredicted string // what follows the predicted races
}

const accessWords = `(\w+) by (\w+) at (\S+) \(event (\d+)\)`

var raceLine = regexp.MustCompile(`^(predicted )?race on (\S+): ` + accessWords + `, ` + accessWords + `\n$`)

// Read takes what a judge told apart.
func Read(told string) *Report {
	r := &Report{}
	var text, after strings.Builder
	for _, line := range strings.SplitAfter(told, "\n") {
		m := raceLine.FindStringSubmatch(line)
		switch {
		case m != nil && m[1] != "":
			r.Predicted = append(r.Predicted, raceOf(m))
		case strings.HasPrefix(line, "not searched: "), strings.HasPrefix(line, "predicted: "):
			fmt.Sscanf(line, "not searched: %d variables", &r.NotSearched)
			after.WriteString(line)
		default:
			if m != nil {
				r.Races = append(r.Races, raceOf(m))
			}
			r.IsClean = r.IsClean || strings.HasPrefix(line, "clean: ")
			text.WriteString(line)
		}
	}
	n := len(r.Races)
	r.All = append(r.Races, r.Predicted...)
	r.Races, r.Predicted = r.All[:n], r.All[n:]
	r.Text, r.afterPredicted = text.String(), after.String()
	return r
}

// raceOf is the race that a line tells of.
func raceOf(m []string) Race {
	r := Race{Variable: m[2], line: m[0]}
	for i := range r.Accesses {
		of := m[3+4*i:]
		event, _ := strconv.Atoi(of[3])
		r.Accesses[i] = Access{Kind: of[0], Goroutine: of[1], Place: of[2], Event: event}
	}
	if a := r.Accesses; m[1] != "" {
		r.Order = fmt.Sprintf("in another order: %s stops before event %d, %s goes on to event %d",
			a[0].Goroutine, a[0].Event, a[1].Goroutine, a[1].Event)
	}
	return r
}

// Learn adds what is known of the accesses: of each its moment, and by the numbers of goroutines their labels, which are the tests
// that they belong to.
func (r *Report) Learn(
	moments func(events map[int]bool) map[int]trace.Moment, labels []string, stack func(number uint32) []translate.Call,
) {
	events := map[int]bool{}
	for _, of := range r.All {
		events[of.Accesses[0].Event], events[of.Accesses[1].Event] = true, true
	}
	known := moments(events)
	for i := range r.All {
		for j := range r.All[i].Accesses {
			a := &r.All[i].Accesses[j]
			if m, there := known[a.Event]; there {
				a.Change, a.Behind, a.leftOut, a.Stack = m.Change, m.String(), m.LeftOut(), stack(m.Stack)
				if int(m.Goroutine) < len(labels) {
					a.Test = labels[m.Goroutine]
				}
			}
			starts := r.Summary.Starts[a.Goroutine] // a name that is lent has several
			n := sort.Search(len(starts), func(n int) bool { return starts[n].Event > a.Event })
			if n > 0 {
				s := starts[n-1]
				a.Started = &Start{s.By, s.Place, stack(s.Stack)}
			}
		}
	}
}

// Key is by what it is known that a race was told: where it is, whichever access came first, and whether it was predicted.
func (r *Race) Key() string {
	a, b := r.Accesses[0].Place, r.Accesses[1].Place
	if b < a {
		a, b = b, a
	}
	if r.Order != "" {
		return PredictedKey + a + " " + b
	}
	return a + " " + b
}

// PredictedKey begins the key of a predicted race.
const PredictedKey = "predicted "

// Tests are those that the accesses of a race belong to.
func (r *Race) Tests() []string {
	var tests []string
	for _, a := range r.Accesses {
		if a.Test != "" && (len(tests) == 0 || tests[0] != a.Test) {
			tests = append(tests, a.Test)
		}
	}
	return tests
}

// told is what was told, which isn't told again.
type told map[string]bool

// isNew reports whether something wasn't told, and notes that it is.
func (t told) isNew(what string) bool {
	if t[what] {
		return false
	}
	t[what] = true
	return true
}

// Tell writes a report, which places race, and what is known of the accesses; then the predicted races, each with how it can come
// about.
func (r *Report) Tell(w io.Writer) {
	io.WriteString(w, r.Text)
	tellPairs(w, r.Races)
	told{}.tellMore(w, r.Races)
	t := told{}
	for i, of := range r.Predicted {
		fmt.Fprintf(w, "%s%s\n", of.line, of.Order)
		t.tellMore(w, r.Predicted[i:i+1])
	}
	io.WriteString(w, r.afterPredicted)
}

// tellPairs tells which pairs of places race, where many variables do at few of them.
func tellPairs(w io.Writer, races []Race) {
	count := map[string]int{}
	var order []string
	for _, r := range races {
		a, b := r.Accesses[0].Kind+" at "+r.Accesses[0].Place, r.Accesses[1].Kind+" at "+r.Accesses[1].Place
		if b < a {
			a, b = b, a
		}
		pair := a + ", " + b
		if count[pair]++; count[pair] == 1 {
			order = append(order, pair)
		}
	}
	if len(races) == len(order) {
		return
	}
	fmt.Fprintf(w, "pairs of places: %d\n", len(order))
	for _, pair := range order {
		fmt.Fprintf(w, "%6d  %s\n", count[pair], pair)
	}
}

// tellMore tells of races what each goroutine held and had done, who started it, in which tests they are, and how it came there.
func (t told) tellMore(w io.Writer, races []Race) {
	t.tellLocks(w, races)
	for _, r := range races {
		for _, a := range r.Accesses {
			t.tellLine(w, a.startedBy())
		}
	}
	for _, r := range races {
		switch tests := r.Tests(); len(tests) {
		case 1:
			t.tellLine(w, fmt.Sprintf("in test %s: the race on %s\n", tests[0], r.Variable))
		case 2:
			t.tellLine(w, fmt.Sprintf("in tests %s and %s: the race on %s\n", tests[0], tests[1], r.Variable))
		}
	}
	for _, r := range races {
		t.tellStacks(w, r.Accesses[0], r.Accesses[1])
	}
}

// tellLine writes a line that wasn't told.
func (t told) tellLine(w io.Writer, line string) {
	if t.isNew(line) {
		io.WriteString(w, line)
	}
}

// tellLocks tells what each of the two of a race held and last synchronized by. Of races at the
// same places the first is told. What the judge tells of a trace has no lock that the trace leaves out.
func (t told) tellLocks(w io.Writer, races []Race) {
	var leftOut []string
	for _, r := range races {
		lines, places := "", ""
		for _, a := range r.Accesses {
			change := ""
			if a.Change {
				change = " for a change"
			}
			if a.Behind != "" {
				lines += fmt.Sprintf("%s's %s of %s%s: %s\n", a.Goroutine, a.Kind, r.Variable, change, a.Behind)
				places += a.Kind + a.Place + a.Behind
			}
		}
		if !t.isNew(places) {
			continue
		}
		io.WriteString(w, lines)
		for _, lock := range append(r.Accesses[0].leftOut, r.Accesses[1].leftOut...) {
			if t.isNew("lock " + lock) {
				leftOut = append(leftOut, lock)
			}
		}
	}
	if len(leftOut) > 0 {
		fmt.Fprintf(w, "not in the trace, since one goroutine alone used each: %s\n", strings.Join(leftOut, ", "))
	}
}

// startedBy tells where a goroutine was started.
func (a *Access) startedBy() string {
	s := a.Started
	switch {
	case s == nil:
		return ""
	case s.By == "":
		return fmt.Sprintf("%s was started at %s, in an earlier segment\n", a.Goroutine, s.Place)
	case s.Place == "":
		return fmt.Sprintf("%s was started by code that isn't recorded, on behalf of %s\n", a.Goroutine, s.By)
	}
	return fmt.Sprintf("%s was started by %s at %s\n", a.Goroutine, s.By, s.Place)
}

// tellStacks writes how the two accesses of a race came about, and how the goroutines that did them were started; the later
// access first, as Go's detector does. Races with the same two stacks are told once.
func (t told) tellStacks(w io.Writer, first, second Access) {
	if len(first.Stack)+len(second.Stack) == 0 || !t.isNew(fmt.Sprint(first.Kind, first.Stack, second.Kind, second.Stack)) {
		return
	}
	did := second.did()
	fmt.Fprintf(w, "==================\n%s by %s:\n", strings.ToUpper(did[:1])+did[1:], second.Goroutine)
	showStack(w, second.Stack)
	fmt.Fprintf(w, "\nPrevious %s by %s:\n", first.did(), first.Goroutine)
	showStack(w, first.Stack)
	for _, a := range []Access{second, first} {
		if a.Started != nil && len(a.Started.Stack) > 0 {
			fmt.Fprintf(w, "\nGoroutine %s created at:\n", a.Goroutine)
			showStack(w, a.Started.Stack)
		}
	}
	fmt.Fprintln(w, "==================")
}

// did is what the program did: a read that stands for a change is a write.
func (a *Access) did() string {
	if a.Change {
		return "write"
	}
	return a.Kind
}

// showStack writes a stack as Go's detector does, with places as seen from the folder that one is in.
func showStack(w io.Writer, stack []translate.Call) {
	if len(stack) == 0 {
		fmt.Fprintln(w, "  [no stack]")
	}
	dir, _ := os.Getwd()
	for _, f := range stack {
		fmt.Fprintf(w, "  %s()\n      %s\n", f.Function, strings.TrimPrefix(f.Place, dir+"/"))
	}
}
