package trace

// A trace has at most 1,024 names of goroutines. A goroutine that has ended lends its name to one that is started later where
// all that the first did happens before the go of the second: that it then stands before the second in one goroutine adds
// nothing. For this the edges are followed here once more, by vector clocks; a mistake in them would add order.

type clock []uint32

func (c clock) join(d clock) clock {
	for len(c) < len(d) {
		c = append(c, 0)
	}
	for i, n := range d {
		if n > c[i] {
			c[i] = n
		}
	}
	return c
}

func (c clock) copy() clock { return append(clock(nil), c...) }

// pairing is what is known of a channel, a lock, a once or an order.
type pairing struct {
	sent            uint32  // how many values
	sends, receives []clock // of a channel: those that others come after
	all, last       clock   // unlocks; a close, a once's end, a release
	readers         clock
}

// take takes the first of a list.
func take(list *[]clock) (c clock) {
	if len(*list) > 0 {
		c, *list = (*list)[0], (*list)[1:]
	}
	return c
}

// lender gives each goroutine a name's number.
type lender struct {
	*Trace
	counts []uint32 // events of a number
	free   []int    // numbers of which the goroutine has ended
	pairs  map[uint32]*pairing
}

const tooManyGoroutines = "more than 1,024 goroutines at once, or that nothing joins"

// isLending reports whether there are more goroutines than names.
func (t *Trace) isLending() bool { return t.living > t.Goroutines }

// lend numbers the goroutines that are alive, where there are too many of them. Those for which no number is left have none, and
// the trace ends where the first of these does something.
func (t *Trace) lend() {
	if !t.isLending() {
		return
	}
	l := &lender{Trace: t, counts: []uint32{0}, pairs: map[uint32]*pairing{}}
	for i := 0; i < t.end; i++ {
		r := &t.Records[i]
		g := &t.goroutines[r.Goroutine]
		switch {
		case r.Op == Exit:
			if g.alive && r.Goroutine != 0 && g.last == i {
				l.free = append(l.free, g.number)
				g.clock = nil
			}
		case t.events[i] == 0:
		case r.Op == Go:
			if t.events[i] = l.start(r); t.events[i] == 0 && t.All {
				t.cutAt(i, tooManyGoroutines)
			}
		case !g.alive || r.Op == Meet && !t.goroutines[r.Other].alive:
			t.cutAt(i, tooManyGoroutines)
		default:
			l.follow(r)
		}
	}
}

// start numbers a goroutine, and answers how many events its go becomes.
func (l *lender) start(r *Record) (events uint8) {
	child := &l.goroutines[r.Other]
	if !l.goroutines[r.Goroutine].alive {
		child.alive = false
		return 0
	}
	c := l.tick(r.Goroutine)
	for j, n := range l.free {
		if n < len(c) && c[n] >= l.counts[n] {
			l.free = append(l.free[:j], l.free[j+1:]...)
			child.number, child.lent, child.clock = n, true, c.copy()
			return 2
		}
	}
	if len(l.counts) == l.Goroutines {
		child.alive = false
		return 0
	}
	child.number, child.clock = len(l.counts), c.copy()
	l.counts = append(l.counts, 0)
	return 1
}

// tick counts an event of a goroutine.
func (l *lender) tick(g uint32) clock {
	of := &l.goroutines[g]
	n := of.number
	l.counts[n]++
	for len(of.clock) <= n {
		of.clock = append(of.clock, 0)
	}
	of.clock[n] = l.counts[n]
	return of.clock
}

// join has a goroutine come after what a clock has.
func (l *lender) join(g uint32, c clock) { l.goroutines[g].clock = l.goroutines[g].clock.join(c) }

// follow adds the edges of an event.
func (l *lender) follow(r *Record) {
	c := l.tick(r.Goroutine)
	p := l.pairs[r.Object]
	if p == nil {
		p = &pairing{}
		l.pairs[r.Object] = p
	}
	switch r.Op {
	case Send: // comes after the receive that made room
		if p.sent++; p.sent > l.Objects[r.Object].Capacity {
			l.join(r.Goroutine, take(&p.receives))
		}
		p.sends = append(p.sends, l.goroutines[r.Goroutine].clock.copy())
	case Receive:
		l.join(r.Goroutine, take(&p.sends))
		p.receives = append(p.receives, l.goroutines[r.Goroutine].clock.copy())
	case Meet:
		d := l.tick(r.Other)
		sender := c.copy()
		l.join(r.Goroutine, d)
		l.join(r.Other, sender)
	case Close, OnceEnd, Release:
		p.last = append(p.last[:0], c...)
	case ReceiveClosed, OnceDone, Acquire, ReadLock, TryReadLock:
		l.join(r.Goroutine, p.last)
	case Lock, TryLock:
		l.join(r.Goroutine, p.all)
		l.join(r.Goroutine, p.readers)
		p.readers = nil
	case Unlock:
		p.last = append(p.last[:0], c...)
		p.all = p.all.join(c)
	case ReadUnlock:
		p.readers = p.readers.join(c)
	}
}
