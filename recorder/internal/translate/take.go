package translate

import "gorace.local/recorder/internal/hooklog"

// step is one of the hooks' records from Go on.
type step struct {
	key   uint64 // the address, and its generation in the low 16 bits
	value uint64
	what  uint32 // the kind, and above it 24 bits of the site
	about uint32 // aux, and above it 24 bits of the other goroutine
	by    uint32 // who, among the actors
	more  uint32 // one more than where the element is; of a default, how many cases are missing
}

func (s *step) op() hooklog.Op { return hooklog.Op(s.what) }
func (s *step) site() uint32   { return s.what >> 8 }
func (s *step) other() uint32  { return s.about >> 8 }
func (s *step) aux() uint8     { return uint8(s.about) }
func (s *step) addr() uint64   { return s.key >> 16 }

// capacity and waiting are of a channel, before the step.
func (s *step) capacity() uint32 { return uint32(s.value >> 32) }
func (s *step) waiting() uint32  { return uint32(s.value) }

// element is what a send or a receive is about.
type element struct {
	bits  uint64
	known bool
	waits uint32 // the site of who waits
}

// isAtomic reports whether a kind of steps are atomic operations.
func isAtomic(op hooklog.Op) bool { return op >= hooklog.AtomicLoad && op <= hooklog.AtomicFail }

// writes reports whether an atomic operation does.
func (s *step) writes() bool { return s.op() == hooklog.AtomicStore || s.op() == hooklog.AtomicRMW }

// word is the key of the word that an atomic operation is about, bytes are those of it.
func (s *step) word() uint64 { return s.addr()>>3<<16 | s.key&0xffff }
func (s *step) bytes() uint8 {
	if s.aux() == 4 {
		return 0xf << (s.addr() & 7)
	}
	return 0xff << (s.addr() & 7)
}

// access is a read or a write, as it was told.
type access struct {
	what uint64 // the kind, the mask, and above these the word's number
	when uint64 // the moment, then the generation, then how many words
}

func (a *access) isWrite() bool  { return hooklog.Op(a.what&^late) == hooklog.Write }
func (a *access) mask() uint8    { return uint8(a.what >> 8) }
func (a *access) moment() uint32 { return uint32(a.when) }

// key is that of the first word: its number, and its generation in the low 16 bits.
func (a *access) key() uint64 { return a.what>>16<<16 | a.when>>32&0xffff }

func (a *access) words() int {
	if n := int(a.when >> 48); n > 0 {
		return n
	}
	return 1
}

// late marks an access whose moment wasn't there when a segment ended.
const late = 1 << 7

// caseOf is a case of a default, with the number of that.
type numberedCase struct {
	step
	seq uint64
}

// store is what was taken, and isn't in a segment yet.
type store struct {
	first    uint64 // the number of the first step
	steps    []step // by their numbers, from the first
	complete int    // so many are there without a gap
	elements []element
	cases    []numberedCase
	accesses []access
	told     [2][]heapObject // of the heap's objects, in this segment and in the one before
	held     int             // steps
	accessed int             // words of accesses
	atomics  int             // steps that are atomic operations
	askAgain int             // with so many records it may be asked again whether they are enough
}

// Take takes whole records that one goroutine wrote.
func (t *Translator) Take(goroutine, _ uint32, words []uint64) {
	by := t.actor(goroutine)
	for len(words) >= 2 {
		n := 2
		switch op := hooklog.OpOf(words[0]); {
		case op == hooklog.Read || op == hooklog.Write:
			a := access{words[0], words[1]}
			t.accesses = append(withRoom(t.accesses), a)
			t.store.accessed += a.words()
		case op == hooklog.Moment:
			t.takeMoment(words)
		case op == hooklog.Object:
			n = 4
			t.store.told[0] = append(t.store.told[0], heapObject{Heap{words[0] >> 16, words[1], words[2] & (1<<32 - 1)}, words[3]})
		case op == hooklog.Label:
			n = t.label(by, words)
		case op >= hooklog.Go && op != hooklog.Pad:
			n = t.takeStep(op, by, words)
		}
		words = words[n:]
	}
}

// takeMoment takes a moment, which may be another goroutine's, and may have been told before. That of one that has ended is
// over.
func (t *Translator) takeMoment(words []uint64) {
	m := moment{pos: words[1] & (1<<40 - 1), site: uint32(words[0]>>8) & (1<<24 - 1)}
	id := uint32(words[1] >> 40)
	if m.pos+1 >= t.store.first {
		m.by = t.actor(id)
	} else if by, ok := t.byID.get(uint64(id)); ok {
		m.by = by
	} else {
		return
	}
	t.addMoment(uint32(words[0]>>32), m)
}

// label names a goroutine.
func (t *Translator) label(by uint32, words []uint64) (n int) {
	name := make([]byte, words[0]>>8&0xff)
	for i := range name {
		name[i] = byte(words[2+i/8] >> (i % 8 * 8))
	}
	if label := string(name); t.who[by].label != label {
		t.who[by].label = label
	}
	return 2 + (len(name)+15)/16*2
}

func (t *Translator) takeStep(op hooklog.Op, by uint32, words []uint64) (n int) {
	n = 4
	if op == hooklog.Send || op == hooklog.Receive || op == hooklog.Meet || op == hooklog.Edge {
		n = 6
	}
	seq := words[1] & (1<<48 - 1)
	if seq < t.store.first {
		return n
	}
	s := step{
		key:   words[0]&^0xffff | words[1]>>48,
		value: words[3],
		what:  uint32(op) | uint32(words[2])<<8,
		about: uint32(words[0]>>8)&0xff | t.otherOf(op, uint32(words[2]>>24))<<8,
		by:    by,
	}
	if isAtomic(op) {
		t.atomics++
	}
	if n == 6 {
		t.elements = append(t.elements, element{words[4], words[5]&1 != 0, uint32(words[5]>>8) & (1<<24 - 1)})
		s.more = uint32(len(t.elements))
	}
	t.keep(s, seq)
	return n
}

// otherOf is where the other goroutine that a step is about is among the actors, or, of what is done for one that waits, one
// more than that.
func (t *Translator) otherOf(op hooklog.Op, other uint32) uint32 {
	other &= 1<<24 - 1
	switch op {
	case hooklog.Go, hooklog.Meet, hooklog.Edge:
		return t.actor(other)
	case hooklog.Send, hooklog.Receive, hooklog.ReceiveClosed:
		if other != 0 {
			return t.actor(other-1) + 1
		}
	}
	return other
}

// mostAhead is how far ahead of the first one a step may be that the hooks have written.
const mostAhead = 1 << 26

// keep puts a step where its number says.
func (t *store) keep(s step, seq uint64) {
	at := seq - t.first
	if at >= mostAhead {
		return
	}
	t.held++
	for at >= uint64(len(t.steps)) {
		t.steps = append(withRoom(t.steps), step{})
	}
	is := &t.steps[at]
	switch s.op() {
	case hooklog.CaseSend, hooklog.CaseReceive:
		t.cases = append(t.cases, numberedCase{s, seq})
		is.more--
	case hooklog.Default:
		s.more += is.more + uint32(s.value)
		*is = s
	default:
		*is = s
	}
}

// withRoom is a list with room for one more. Long lists are copied less often than append does.
func withRoom[T any](list []T) []T {
	if len(list) < cap(list) || len(list) < 1<<10 {
		return list
	}
	return append(make([]T, 0, 2*len(list)), list...)
}

// isThere reports whether a step was read, with all its cases.
func (s *step) isThere() bool { return s.what != 0 && (s.op() != hooklog.Default || s.more == 0) }

// advance counts the steps that are there without a gap.
func (t *store) advance() int {
	for t.complete < len(t.steps) && t.steps[t.complete].isThere() {
		t.complete++
	}
	return t.complete
}
