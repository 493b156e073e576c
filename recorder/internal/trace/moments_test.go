package trace

import (
	"strings"
	"testing"
)

// TestMoments: what is held and done stands in the log, also where the trace leaves it out.
func TestMoments(t *testing.T) {
	table := []Site{{Place: "-"}}
	for _, s := range []Site{{Name: "x"}, {Name: "mu"}, {Name: "own"}, {Name: "c"}, {Name: "group"}, {}} {
		for _, line := range "12" {
			s.Place = s.Name + ".go:" + string(line)
			table = append(table, s)
		}
	}
	const x, mu, own, c, group, start = 1, 3, 5, 7, 9, 11
	records := []Record{
		{Op: Go, Other: 1, Site: start},
		{Op: Go, Other: 2, Site: start + 1},
		{Op: Read, Object: 1, Goroutine: 1, Site: x}, // A
		{Op: ReadLock, Object: 2, Goroutine: 1, Site: mu},
		{Op: Write, Object: 1, Goroutine: 1, Site: x}, // B
		{Op: ReadLock, Object: 2, Goroutine: 2, Site: mu},
		{Op: Lock, Object: 3, Goroutine: 2, Site: own},    // which g2 alone uses
		{Op: Write, Object: 1, Goroutine: 2, Site: x + 1}, // C
		{Op: Meet, Object: 4, Goroutine: 2, Other: 1, Site: c, OtherSite: c + 1},
		{Op: ReadUnlock, Object: 2, Goroutine: 2, Site: mu + 1},
		{Op: Write, Object: 1, Goroutine: 1, Site: x}, // D
		{Op: Unlock, Object: 3, Goroutine: 2, Site: own + 1},
		{Op: Release, Object: 5, Goroutine: 2, Site: group},
		{Op: Acquire, Object: 5, Site: group + 1},
		{Op: Read, Object: 1, Site: x},               // E
		{Op: Read, Object: 1, Goroutine: 2, Site: x}, // F
		{Op: Release, Object: 6, Site: start},
		{Op: Read, Object: 1, Site: x}, // G
	}
	objects := []Object{{}, {Kind: Variable, Site: x}, {Kind: RWMutex, Site: mu}, {Kind: Mutex, Site: own}, {Kind: Channel, Site: c}, {Kind: Order, Site: group}, {Kind: Order, Site: start}}
	trace := New(&Recording{Records: records, Objects: objects, Sites: table}, Options{Version: 1})
	var b strings.Builder
	if _, err := trace.Write(&b); err != nil {
		t.Fatal(err)
	}
	events := map[int]bool{}
	var accesses []int
	event := 0
	for _, line := range strings.Split(b.String(), "\n")[1:] {
		word, _, _ := strings.Cut(line, " ")
		switch word {
		case "goroutine", "var", "chan", "mutex", "rwmutex", "once", "":
			continue
		}
		event++
		if word == "read" || word == "write" {
			events[event] = true
			accesses = append(accesses, event)
		}
	}
	moments := trace.Moments(events)
	for i, want := range []string{
		"without a lock, after its start at .go:1",
		"after rlock of mu at mu.go:1",
		"after rlock of mu at mu.go:1, lock of own at own.go:1",
		"after rlock of mu at mu.go:1, last receive from c at c.go:2",
		"without a lock, after synchronization through group at group.go:2",
		"without a lock, after synchronization through group at group.go:1",
		"without a lock, after synchronization at .go:1",
	} {
		if i >= len(accesses) {
			t.Fatalf("%d accesses\n%s", len(accesses), b.String())
		}
		if left := moments[accesses[i]].LeftOut(); (len(left) > 0) != strings.Contains(want, " of own at ") {
			t.Errorf("access %c: left out are %v", 'A'+i, left)
		}
		if got := moments[accesses[i]].String(); got != want {
			t.Errorf("access %c: %s, not %s", 'A'+i, got, want)
		}
	}
}

// TestMomentsNameLocksApart: two locks of one name that the trace leaves out, since each is one goroutine's, have two names.
func TestMomentsNameLocksApart(t *testing.T) {
	table := []Site{{Place: "-"}, {Name: "x", Place: "a.go:1"}, {Name: "mu", Place: "a.go:2"}, {Place: "a.go:3"}}
	const x, mu, start = 1, 2, 3
	records := []Record{
		{Op: Go, Other: 1, Site: start},
		{Op: Go, Other: 2, Site: start},
		{Op: Lock, Object: 2, Goroutine: 1, Site: mu},
		{Op: Write, Object: 1, Goroutine: 1, Site: x},
		{Op: Lock, Object: 3, Goroutine: 2, Site: mu},
		{Op: Write, Object: 1, Goroutine: 2, Site: x},
	}
	objects := []Object{{}, {Kind: Variable, Site: x}, {Kind: Mutex, Site: mu}, {Kind: Mutex, Site: mu}}
	trace := New(&Recording{Records: records, Objects: objects, Sites: table}, Options{Version: 1})
	var b strings.Builder
	if _, err := trace.Write(&b); err != nil {
		t.Fatal(err)
	}
	moments := trace.Moments(map[int]bool{3: true, 4: true})
	for event, name := range map[int]string{3: "mu", 4: "mu_2"} {
		m := moments[event]
		if got, want := m.String(), "after lock of "+name+" at a.go:2"; got != want {
			t.Errorf("event %d: %s, not %s\n%s", event, got, want, b.String())
		}
		if got := m.LeftOut(); len(got) == 0 || got[0] != name {
			t.Errorf("event %d: left out are %v, not %s", event, got, name)
		}
	}
}

// TestMomentsOfAnUnlockByAnother: where one goroutine unlocks what others have read-locked, the first
// of these holds it no longer, each time.
func TestMomentsOfAnUnlockByAnother(t *testing.T) {
	table := []Site{{Place: "-"}, {Name: "x", Place: "a.go:1"}, {Name: "mu", Place: "a.go:2"}, {Place: "a.go:3"}}
	const x, mu, start = 1, 2, 3
	records := []Record{
		{Op: Go, Other: 1, Site: start},
		{Op: Go, Other: 2, Site: start},
		{Op: ReadLock, Object: 2, Goroutine: 2, Site: mu},
		{Op: ReadLock, Object: 2, Goroutine: 1, Site: mu},
		{Op: ReadUnlock, Object: 2, Site: mu},
		{Op: Write, Object: 1, Goroutine: 1, Site: x},
		{Op: Write, Object: 1, Goroutine: 2, Site: x},
	}
	objects := []Object{{}, {Kind: Variable, Site: x}, {Kind: RWMutex, Site: mu}}
	trace := New(&Recording{Records: records, Objects: objects, Sites: table}, Options{Version: 1})
	for round := 0; round < 20; round++ {
		moments := trace.Moments(map[int]bool{6: true, 7: true})
		if a, b := moments[6].String(), moments[7].String(); a != "without a lock, after rlock of mu at a.go:2" || b != "after rlock of mu at a.go:2" {
			t.Fatalf("round %d: %s; %s", round, a, b)
		}
	}
}
