package trace

import (
	"strings"
	"testing"
)

// TestChangesAreReads: where other orders are looked for, a change of what a map or an object of the
// standard library holds reads it first, so that none before it is left out; a write of memory
// doesn't.
func TestChangesAreReads(t *testing.T) {
	for _, c := range []struct {
		kind    ObjectKind
		predict bool
		more    string
	}{
		{Map, true, "read main x 1 a.go:2\n"},
		{Content, true, "read main x 1 a.go:2\n"},
		{Variable, true, ""},
		{Map, false, ""},
	} {
		records := []Record{
			{Op: Go, Other: 1, Site: 1},
			{Op: Write, Object: 1, Goroutine: 1, Site: 1},
			{Op: Write, Object: 1, Site: 2},
			{Op: Read, Object: 1, Site: 3},
		}
		trace := New(of(records, Object{Kind: c.kind, Site: 1}), Options{Version: 2, Predict: c.predict})
		var b strings.Builder
		if _, err := trace.Write(&b); err != nil {
			t.Fatal(err)
		}
		first := "write g1 x 1 a.go:1\n"
		if c.more != "" {
			first = "read g1 x 0 a.go:1\n" + first
		}
		want := first + c.more + "write main x 2 a.go:2\nread main x 2 a.go:3\n"
		if !strings.HasSuffix(b.String(), "go main g1 a.go:1\n"+want) {
			t.Errorf("%+v: got\n%s", c, b.String())
		}
		moments := trace.Moments(map[int]bool{2: true, 3: true, 4: true})
		if isRead := c.more != ""; moments[2].Change != isRead || moments[3].Change || moments[4].Change != isRead {
			t.Errorf("%+v: moments %+v", c, moments)
		}
	}
}

// TestAChangeAtTheLimit: the two events of a change stand in one trace.
func TestAChangeAtTheLimit(t *testing.T) {
	records := []Record{
		{Op: Go, Other: 1, Site: 1},
		{Op: Write, Object: 1, Goroutine: 1, Site: 1},
		{Op: Write, Object: 1, Site: 2},
	}
	for limit, want := range map[int]int{3: 3, 4: 3, 5: 5} {
		o := Options{Version: 2, Predict: true, Events: limit}
		if _, s := writtenAs(t, o, of(records, Object{Kind: Map, Site: 1})); s.Events != want {
			t.Errorf("limit %d: %d events", limit, s.Events)
		}
	}
}
