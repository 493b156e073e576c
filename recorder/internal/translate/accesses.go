package translate

import (
	"gorace.local/recorder/internal/hooklog"
	"gorace.local/recorder/internal/trace"
)

// use is an access of the segment that may matter.
type use struct {
	at   uint32 // where its moment is in the list
	refs uint32 // where the words that it is about begin, in memory.refs; before they are found, which access it is
	next uint32 // one more than the next one after the same step
	n    uint16 // so many words
	what uint16 // the low half of access.what
}

func (u *use) isWrite() bool { return hooklog.Op(u.what&^late) == hooklog.Write }
func (u *use) mask() uint8   { return uint8(u.what >> 8) }

// phase says whether an access is the segment's.
type phase uint8

const (
	unknown phase = iota // its moment wasn't told yet
	over                 // an earlier segment had it
	within
	later
)

// phaseOf is that of an access, and where its moment is in the list.
func (t *Translator) phaseOf(a *access) (at uint32, is phase) {
	at, ok := t.momentAt(a.moment())
	switch {
	case !ok:
		return 0, unknown
	case t.all[at].pos >= t.limit:
		return at, later
	case t.isOver(&t.all[at]):
		return at, over
	}
	return at, within
}

// gather finds the accesses of the first n steps that may matter: those of words that several goroutines use, and that one of them
// writes. all: those after the last step count too.
func (t *Translator) gather(n int, all bool) {
	t.limit = t.store.first + uint64(n) - 1
	if all {
		t.limit++
	}
	for i := range t.accesses {
		if at, is := t.phaseOf(&t.accesses[i]); is == within {
			t.uses = append(withRoom(t.uses), use{at: at, refs: uint32(i)})
			t.meets(&t.who[t.all[at].by])
		}
	}
	t.touchPlain(true) // no other words may be in a race
	t.touchAtomic(n)
	t.touchPlain(false)
	t.findWords(t.Trace.All)
	kept := t.uses[:0]
	for _, u := range t.uses {
		a := &t.accesses[u.refs]
		u.refs, u.what = uint32(len(t.refs)), uint16(a.what)
		t.findRefs(&u, a)
		if u.n = uint16(len(t.refs) - int(u.refs)); u.n > 0 {
			kept = append(kept, u)
		}
	}
	t.uses = kept
}

// isAlone reports whether main did something before another goroutine was there: it is in no race, but says whose memory it is.
func (t *Translator) isAlone(pos uint64) bool { return pos < t.firstGo && !t.Trace.All }

// touchPlain notes who reads, or who writes.
func (t *Translator) touchPlain(writes bool) {
	for i := range t.uses {
		u := &t.uses[i]
		if a := &t.accesses[u.refs]; a.isWrite() == writes && !t.isAlone(t.all[u.at].pos) {
			t.touch(a.key(), a.words(), t.all[u.at].by, cellPlain, writes || t.Trace.All, writes)
		}
	}
}

// touchAtomic notes atomic operations of the program's.
func (t *Translator) touchAtomic(n int) {
	if t.store.atomics == 0 {
		return
	}
	for i := range t.steps[:n] {
		s := &t.steps[i]
		if isAtomic(s.op()) && t.factsAt(s.site())&(inLock|isPrivate) == 0 && !t.isAlone(t.store.first+uint64(i)) {
			t.atomic = append(withRoom(t.atomic), uint32(i))
			t.touch(s.word(), 1, s.by, 0, s.writes(), s.writes())
		}
	}
}

// carryAccesses leaves the accesses that later segments may have: what comes after the last step, or may as well be done there.
func (t *Translator) carryAccesses() {
	t.store.accessed = 0
	rest := t.accesses[:0]
	for _, a := range t.accesses {
		switch at, is := t.phaseOf(&a); {
		case is == unknown && a.what&late == 0:
			a.what |= late
		case is == unknown || is == over:
			continue
		case is == within && (!t.goesOn(&t.all[at]) || len(rest) >= t.Records/4):
			continue
		}
		t.store.accessed += a.words()
		rest = append(rest, a)
	}
	if t.accesses = rest; cap(rest) > 2*t.Records {
		t.accesses = append([]access(nil), rest...)
	}
}

// findRefs finds the words that an access is about, of those that may matter.
func (t *Translator) findRefs(u *use, a *access) {
	m, mask, isKnown, isLeftOut := &t.all[u.at], u.mask(), false, false
	hash := hashOf(uint64(u.at)<<16 | uint64(u.what&^late))
	t.eachBlock(a.key(), a.words(), false, func(cells []uint32) {
		for _, c := range cells {
			if c == 0 || isLeftOut {
				continue
			}
			if !isKnown {
				isKnown, isLeftOut = true, t.factsAt(m.site)&(inRuntime|isHidden) != 0
			}
			if !isLeftOut {
				w := &t.words[c-1]
				w.starts |= mask & -mask
				w.uses += hash
				t.refs = append(t.refs, c-1)
			}
		}
	})
	if isKnown && !isLeftOut {
		t.who[m.by].accesses = t.attempt
	}
}

// refsOf are where the words are that an access is about.
func (t *Translator) refsOf(u *use) []uint32 { return t.refs[u.refs : u.refs+uint32(u.n)] }

// position is how many steps of the segment come before an access.
func (t *Translator) position(u *use) int {
	if pos := t.all[u.at].pos; pos >= t.store.first {
		return int(pos - t.store.first + 1)
	}
	return 0
}

// lineUp lines the accesses that are kept up by how many of the n steps come before them, and answers how many there are up to the
// last one, which may be atomic.
func (t *Translator) lineUp(n int) (last int) {
	if cap(t.lines) < n+1 {
		t.lines = make([]uint32, n+1, n+n/4+1)
	}
	t.lines = t.lines[:n+1]
	for i := range t.lines {
		t.lines[i] = 0
	}
	for i := len(t.uses) - 1; i >= 0; i-- {
		u := &t.uses[i]
		if !t.isKept(u) {
			continue
		}
		steps := t.position(u)
		u.next, t.lines[steps] = t.lines[steps], uint32(i+1)
		if steps > last {
			last = steps
		}
	}
	t.eachAtomicPart(func(i, at uint32) {
		if t.variables[at].is&racesAtomically != 0 && int(i) >= last {
			last = int(i) + 1
		}
	})
	return last
}

// putAccesses puts the accesses after so many steps.
func (t *Translator) putAccesses(steps int) {
	for i := t.lines[steps]; i != 0; i = t.uses[i-1].next {
		t.putAccess(&t.uses[i-1])
	}
}

// isKept reports whether an access is about a variable that is kept.
func (t *Translator) isKept(u *use) (is bool) {
	if t.isAlone(t.all[u.at].pos) {
		return false
	}
	t.eachPart(u, func(at uint32) { is = is || t.variables[at].id != 0 || t.variables[at].is&racesAtomically != 0 })
	return is
}

// putAccess puts an access of each variable that is kept.
func (t *Translator) putAccess(u *use) {
	m := &t.all[u.at]
	r := trace.Record{Op: trace.Read, Site: t.placeAt(m.site), OtherSite: m.site, Goroutine: t.number(m.by)}
	if u.isWrite() {
		r.Op = trace.Write
	}
	t.eachPart(u, func(at uint32) {
		v := &t.variables[at]
		if v.id != 0 {
			if v.is&passedOn != 0 && u.isWrite() && t.factsAt(m.site)&isPassing != 0 {
				t.passOn(at, m.by)
			}
			r.Object = v.id
			t.put(r)
		}
		if v.is&racesAtomically == 0 {
			return
		}
		for _, of := range t.atomicUses[at] {
			if of.by != m.by {
				r.Object = of.id
				t.put(r)
			}
		}
	})
}
