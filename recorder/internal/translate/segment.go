package translate

import (
	"sort"

	"gorace.local/recorder/internal/hooklog"
	"gorace.local/recorder/internal/trace"
)

// Segment is what happened in a part of the run.
type Segment struct {
	Number int // from 0
	Trace  *trace.Trace
	End    string   // why another one follows, "" of the last
	Cut    string   // for the caller: why nothing more was recorded, though the run went on
	Last   bool     // the run ends with it
	Labels []string // of goroutines, by their numbers in the records: what they or their starters were named; "" for none
}

// segmentState is what is known of a segment while it is made.
type segmentState struct {
	memory
	heap heap

	firstGo uint64 // the go of another goroutine that does something: before it main is alone

	objects  []trace.Object
	unnamed  []unnamed
	state    []trace.Record // what stood at the beginning, as main makes it
	starts   []trace.Record // of goroutines that were there
	begun    []trace.Record // onces that were under way, the innermost last
	out      []trace.Record // what happened; Nones have no place
	after    []int          // after each step there are so many of these
	numbered []string       // the labels of goroutines that have a number
	nextCase int

	channels keyed[channel]
	locks    [2]keyed[lock] // Mutexes, RWMutexes
	onces    keyed[once]
	orders   orders
}

func (s *segmentState) empty(records int) {
	s.memory.empty(records)
	s.heap.empty()
	s.objects, s.unnamed = append(s.objects[:0], trace.Object{}), s.unnamed[:0]
	s.state, s.starts, s.begun, s.out = s.state[:0], s.starts[:0], s.begun[:0], s.out[:0]
	s.after, s.numbered, s.nextCase = s.after[:0], s.numbered[:0], 0
	s.channels.empty()
	s.locks[0].empty()
	s.locks[1].empty()
	s.onces.empty()
	s.orders.empty()
}

// objectAt numbers an object that is used first at a site.
func (t *Translator) objectAt(o trace.Object, kind Kind, site uint32, addr uint64) (id uint32) {
	o.Site = t.placeAt(site)
	id = uint32(len(t.objects))
	t.objects = append(t.objects, o)
	t.unnamed = append(t.unnamed, unnamed{id: id, kind: kind, site: site, addr: addr})
	return id
}

// put appends a record of a step.
func (s *segmentState) put(r trace.Record) { s.out = append(withRoom(s.out), r) }

// bring appends something that main does at the beginning to an object.
func (s *segmentState) bring(id uint32, op trace.Op, value uint64) {
	s.state = append(s.state, trace.Record{Op: op, Object: id, Site: s.objects[id].Site, Value: value})
}

// IsReady reports whether there is enough for a segment: of what was taken, the half could be in it.
func (t *Translator) IsReady() bool {
	count := t.held + t.store.accessed
	if count < t.Records || count < t.askAgain {
		return false
	}
	n := t.advance()
	switch {
	case n == 0 && t.held > 0:
		return false
	case count >= mostHeld*t.Records, n > 0 && 2*(n+t.accessedBefore(t.store.first+uint64(n)-1)) >= count:
		return true
	}
	t.askAgain = count + t.Records/8
	return false
}

// accessedBefore counts the words that were accessed before a step.
func (t *Translator) accessedBefore(seq uint64) (n int) {
	for i := range t.accesses {
		a := &t.accesses[i]
		if at, ok := t.momentAt(a.moment()); ok && t.all[at].pos < seq {
			n += a.words()
		}
	}
	return n
}

// mostHeld is how many times a segment's records are held at most, where steps are missing or there are none.
const mostHeld = 4

// Segment makes a segment of what is there: all steps up to the first that is missing, or to where the trace reaches a limit. If
// the run has ended, it is the last one that has the last step. Its trace is there until the next call; its objects have no names.
func (t *Translator) Segment(ended bool) *Segment {
	t.places.refresh()
	sort.SliceStable(t.cases, func(i, j int) bool { return t.cases[i].seq < t.cases[j].seq })
	there := t.advance()
	n := there
	if t.aim > 0 && t.aim < there {
		n = t.aim
	}
	s, end := t.try(n, ended && n == there), "as many records as a segment is for"
	for fits := t.fitting(s); fits > 0 && fits < n; fits = t.fitting(s) {
		n, t.aim, end = fits, fits, s.Trace.Cut()
		s = t.try(n, false)
	}
	if !s.Last {
		s.End = end
	}
	if t.aim *= 2; t.aim > t.Records {
		t.aim = 0
	}
	t.cut(s, n)
	t.segments++
	return s
}

// fitting is how many steps have all their records in the trace. Where it has no whole step, what stood at the beginning is too much
// for it already.
func (t *Translator) fitting(s *Segment) int {
	end := s.Trace.End()
	if end == len(s.Trace.Records) {
		return len(t.steps)
	}
	return sort.SearchInts(t.after, end-len(t.state)-len(t.starts)+1)
}

// shortRest is how many steps a segment has after its last access.
const shortRest = 1 << 16

// try makes a segment of the first n steps. all: the accesses after the last one count too. Many steps after all accesses are left
// out, since they order none.
func (t *Translator) try(n int, all bool) *Segment {
	t.attempt++
	t.segmentState.empty(t.Records)
	t.follow(n)
	t.gather(n, all || n == 0)
	t.findVariables()
	t.chooseVariables()
	last := t.lineUp(n)
	if n-last <= shortRest || t.Trace.All || t.Trace.Predict {
		last = n
	}
	for i := 0; i < last; i++ {
		t.putAccesses(i)
		t.step(&t.steps[i], t.store.first+uint64(i))
		t.after = append(t.after, len(t.out))
	}
	t.putAccesses(last)
	if t.hasPassed && !t.Trace.All {
		t.dropAlone()
	}
	of := &trace.Recording{Records: t.withFront(), Objects: t.objects, Sites: t.table, Variables: t.met, More: n - last}
	return &Segment{Number: int(t.segments), Last: all, Trace: trace.New(of, t.Trace)}
}

// withFront puts before what happened what stood at the beginning.
func (t *Translator) withFront() []trace.Record {
	for i := len(t.begun) - 1; i >= 0; i-- {
		t.starts = append(t.starts, t.begun[i])
	}
	front := append(t.state, t.starts...)
	n := len(t.out)
	t.out = append(t.out, front...)
	copy(t.out[len(front):], t.out[:n])
	copy(t.out, front)
	return t.out
}

// cut leaves what later segments have.
func (t *Translator) cut(s *Segment, n int) {
	s.Labels = append([]string{""}, t.numbered...)
	if at, ok := t.byID.get(1); ok {
		s.Labels[0] = t.who[at].label
	}
	t.carryAccesses()
	t.carryMoments(t.store.first + uint64(n) - 1)
	t.carrySteps(n)
	t.actors.dropEnded()
	t.heap.take(&t.store.told)
	t.store.told[0], t.store.told[1] = t.store.told[1][:0], t.store.told[0]
	t.askAgain = 0
}

// carrySteps leaves the steps after the first n, with their elements and cases.
func (t *store) carrySteps(n int) {
	t.steps = t.steps[:copy(t.steps, t.steps[n:])]
	t.first += uint64(n)
	t.complete, t.held, t.atomics = 0, 0, 0
	var elements []element
	for i := range t.steps {
		s := &t.steps[i]
		if s.what == 0 {
			continue
		}
		t.held++
		if isAtomic(s.op()) {
			t.atomics++
		}
		if s.more != 0 && s.op() != hooklog.Default {
			elements = append(elements, t.elements[s.more-1])
			s.more = uint32(len(elements))
		}
	}
	t.elements = append(t.elements[:0], elements...)
	cases := t.cases[:0]
	for _, c := range t.cases {
		if c.seq >= t.first {
			cases = append(cases, c)
		}
	}
	t.cases = cases
}
