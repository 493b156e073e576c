package translate

import "gorace.local/recorder/internal/trace"

// actor is a goroutine of the program. It is known until a segment ends in which it has ended.
type actor struct {
	id     uint32 // the hooks' number
	site   uint32 // of its go, 0 while that isn't known
	label  string
	before uint64 // its last step before the segment
	last   uint64 // and so far

	system  bool // the runtime started it for itself
	foreign bool // the library did
	ended   bool
	gone    bool // it is known no more

	// of a segment
	started  uint64 // its go, if that is in the segment
	number   uint32 // in the records
	segment  uint32 // one more than the number of the last one in which it has one
	accesses uint32 // the same of the last one in which it accesses something
	start    uint32 // of one that the library started: one more than where its go is, until it does something
	starter  uint32
	open     uint32 // onces in whose functions it is
	finalize bool   // it is about to run finalizers
}

// isMain reports whether it is the main goroutine, or what starts that.
func (a *actor) isMain() bool { return a.id <= 1 }

// actors are the goroutines that are known.
type actors struct {
	who  []actor
	free []uint32
	byID table
}

// actor is where the goroutine with a number of the hooks' is in the list.
func (l *actors) actor(id uint32) uint32 {
	next := uint32(len(l.who))
	if n := len(l.free); n > 0 {
		next = l.free[n-1]
	}
	at, isNew := l.byID.add(uint64(id), next)
	if !isNew {
		return at
	}
	if int(next) < len(l.who) {
		l.free = l.free[:len(l.free)-1]
		l.who[next] = actor{id: id}
	} else {
		l.who = append(l.who, actor{id: id})
	}
	return at
}

// dropEnded forgets those that have ended.
func (l *actors) dropEnded() {
	l.byID.empty()
	l.free = l.free[:0]
	for i := range l.who {
		a := &l.who[i]
		if a.ended {
			a.gone = true
			l.free = append(l.free, uint32(i))
			continue
		}
		a.before = a.last
		l.byID.add(uint64(a.id), uint32(i))
	}
}

// number is that of a goroutine in the records, which begins there if it is new.
func (t *Translator) number(at uint32) uint32 {
	a := &t.who[at]
	if a.segment != t.attempt {
		t.begin(a)
	}
	return a.number
}

// begin has a goroutine begin that does something of the program's. If its go was in an earlier segment, or was the runtime's for
// itself, or isn't known, main starts it at the beginning of the segment, so nothing comes before it.
func (t *Translator) begin(a *actor) {
	a.segment = t.attempt
	if a.isMain() {
		a.number = 0
		return
	}
	t.give(a)
	if a.start != 0 {
		r := &t.out[a.start-1]
		a.start = 0
		r.Op, r.Other, r.Goroutine = trace.Go, a.number, t.number(a.starter)
		return
	}
	r := trace.Record{Op: trace.Go, Other: a.number, Kind: uint8(trace.GoForeign)}
	if a.site != 0 && !a.foreign {
		r.Kind, r.Site, r.OtherSite = uint8(trace.GoEarlier), t.placeAt(a.site), a.site
	}
	t.starts = append(t.starts, r)
}

// give numbers a goroutine.
func (t *Translator) give(a *actor) {
	t.numbered = append(t.numbered, a.label)
	a.number = uint32(len(t.numbered))
}
