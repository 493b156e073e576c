package report

import (
	"strings"
	"testing"

	"gorace.local/recorder/internal/trace"
	"gorace.local/recorder/internal/translate"
)

// TestPredicted: what a judge tells of other orders is no part of the report of the recorded one,
// and after each race stands how another order comes to it; what is known of the two accesses
// stands there once for the same places.
func TestPredicted(t *testing.T) {
	report := "race on z: read by g1 at a.go:1 (event 2), write by g2 at a.go:2 (event 3)\nraces: 1\n"
	o := Read(report + `predicted race on x: write by g1 at a.go:3 (event 5), read by g2 at a.go:9 (event 8)
predicted race on x_2: write by g1 at a.go:3 (event 6), read by g2 at a.go:9 (event 9)
not searched: 3 variables
predicted: 2
`)
	if o.Text != report || len(o.Races) != 1 || len(o.Predicted) != 2 || o.NotSearched != 3 {
		t.Errorf("got %d races, %d predicted\n%s", len(o.Races), len(o.Predicted), o.Text)
	}
	moment := trace.Moment{Last: trace.Deed{What: "unlock of mu", Place: "a.go:8"}, Change: true, Stack: 1}
	o.Summary = &trace.Summary{Starts: map[string][]trace.Start{"g2": {{By: "main", Place: "a.go:6", Event: 4}}}}
	o.Learn(known(t, 6, map[int]trace.Moment{5: {}, 6: {}, 8: moment, 9: moment}), nil, func(number uint32) []translate.Call {
		return map[uint32][]translate.Call{1: {{Function: "f", Place: "a.go:9"}}}[number]
	})
	var b strings.Builder
	o.Tell(&b)
	want := report + `predicted race on x: write by g1 at a.go:3 (event 5), read by g2 at a.go:9 (event 8)
in another order: g1 stops before event 5, g2 goes on to event 8
g1's write of x: without a lock
g2's read of x for a change: without a lock, after unlock of mu at a.go:8
g2 was started by main at a.go:6
==================
Write by g2:
  f()
      a.go:9

Previous write by g1:
  [no stack]
==================
predicted race on x_2: write by g1 at a.go:3 (event 6), read by g2 at a.go:9 (event 9)
in another order: g1 stops before event 6, g2 goes on to event 9
not searched: 3 variables
predicted: 2
`
	if b.String() != want {
		t.Errorf("got\n%s", b.String())
	}
	if o = Read("clean: 3 events, 2 accesses\n"); !o.IsClean || o.afterPredicted != "" || len(o.All) > 0 {
		t.Errorf("got %+v", o)
	}
}

// known answers moments, where so many are asked for.
func known(t *testing.T, events int, moments map[int]trace.Moment) func(map[int]bool) map[int]trace.Moment {
	return func(wanted map[int]bool) map[int]trace.Moment {
		if len(wanted) != events {
			t.Errorf("asked for the moments of %v", wanted)
		}
		return moments
	}
}

func noStacks(uint32) []translate.Call { return nil }

// TestTell: after a report stands what is known of the accesses, once for the same places.
func TestTell(t *testing.T) {
	report := `race on x: write by g1 at a.go:3 (event 5), read by main at a.go:9 (event 8)
race on x_2: write by g1 at a.go:3 (event 6), read by main at a.go:9 (event 9)
race on y: read by g1 at a.go:4 (event 20), write by g2 at a.go:5 (event 21)
races: 3
`
	o := Read(report)
	o.Summary = &trace.Summary{
		Starts: map[string][]trace.Start{
			"g1": {{By: "main", Place: "a.go:1", Event: 1}, {By: "main", Place: "a.go:2", Event: 10}},
			"g2": {{By: "g1", Event: 12}},
		},
	}
	o.Learn(known(t, 6, map[int]trace.Moment{
		5: {Locks: []trace.Deed{{What: "lock of mu", Place: "a.go:2"}}, Last: trace.Deed{What: "lock of mu", Place: "a.go:2"}},
		6: {Locks: []trace.Deed{{What: "lock of mu", Place: "a.go:2"}}, Last: trace.Deed{What: "lock of mu", Place: "a.go:2"}},
		8: {Last: trace.Deed{What: "go of g2", Place: "a.go:6"}}, 9: {Last: trace.Deed{What: "go of g2", Place: "a.go:6"}},
		20: {Last: trace.Deed{What: "unlock of own", Place: "a.go:4", LeftOut: "own"}},
		21: {Locks: []trace.Deed{{What: "lock of own", Place: "a.go:4", LeftOut: "own"}, {What: "lock of mine", Place: "a.go:4", LeftOut: "mine"}},
			Last: trace.Deed{What: "lock of mine", Place: "a.go:4", LeftOut: "mine"}},
	}), nil, noStacks)
	var b strings.Builder
	o.Tell(&b)
	want := report + `pairs of places: 2
     2  read at a.go:9, write at a.go:3
     1  read at a.go:4, write at a.go:5
g1's write of x: after lock of mu at a.go:2
main's read of x: without a lock, after go of g2 at a.go:6
g1's read of y: without a lock, after unlock of own at a.go:4
g2's write of y: after lock of own at a.go:4, lock of mine at a.go:4
not in the trace, since one goroutine alone used each: own, mine
g1 was started by main at a.go:1
g1 was started by main at a.go:2
g2 was started by code that isn't recorded, on behalf of g1
`
	if b.String() != want {
		t.Errorf("got\n%s", b.String())
	}
}
