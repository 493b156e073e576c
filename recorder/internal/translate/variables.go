package translate

import (
	"math/bits"

	"gorace.local/recorder/internal/trace"
)

// A word of memory that several goroutines use has a variable for each byte at which some access begins. An access is about those
// that begin at a byte of its own: of two accesses with a byte in common, one begins at a byte of the other.

// blockWords is how many neighbours are looked up at once.
const blockWords = 8

// block are words of one generation that lie side by side.
type block struct {
	key   uint64             // that of the first one
	cells [blockWords]uint32 // first who uses it, and how; then one more than which word it is, 0 for none
}

// What a cell says besides one more than its first user, which stands above.
const (
	cellPlain   = 1 << iota // some access isn't atomic
	cellWritten             // some access writes
	cellSeveral             // another one uses it too
	userShift   = iota

	mayRace = cellPlain | cellWritten | cellSeveral
)

// word is eight bytes of memory, as long as nobody uses them anew.
type word struct {
	key    uint64 // the word's number, and its generation in the low 16 bits
	uses   uint64 // a sum of hashes of what accesses are about it
	at     uint32 // the first of its variables
	starts uint8  // the bytes at which they begin
	isPart bool   // it has the same accesses as the word before it in memory, and is a part of that one's variable
}

// hashOf is what words have in common that the same access is about.
func hashOf(what uint64) uint64 {
	h := (what + 1) * 0x9E3779B97F4A7C15
	h = (h ^ h>>29) * 0xBF58476D1CE4E5B9
	return h ^ h>>32
}

// variable is what is known of the accesses of a variable.
type variable struct {
	user     uint32    // one more than the first goroutine that accesses it
	atomicBy uint32    // the same of atomic operations
	uses     [3]uint32 // one more than where an access is: the first write, the first read, and the last
	id       uint32    // its number if plain accesses may race; of several words that are one variable, the same
	holder   uint32    // one more than the goroutine that private orders have passed the memory on to
	is       traits
}

// atomicUse is the variable that stands for a goroutine's atomic operations on a variable. Plain accesses of others are on it too, so
// two atomic operations don't race, and one with a plain access does.
type atomicUse struct{ by, id uint32 }

// traits say what accesses of a variable there are.
type traits uint16

const (
	several traits = 1 << iota // goroutines access it
	written                    // by a plain access that isn't private
	writtenPrivately
	severalAtomics // goroutines have atomic operations on it
	atomicWritten
	usedPrivately
	usedOpenly  // by the program itself, or written by another part of the library
	usedOutside // so, and no private function has called for it
	usedAsMap
	racesAtomically // plain accesses may race with atomic operations of others
	passedOn        // private orders may pass it on from one goroutine to another
)

// memory is what a segment's accesses are about.
type memory struct {
	limit      uint64 // the steps from here on come after the segment's accesses
	uses       []use
	blocks     []block
	byBlock    table
	words      []word // those that may be in a race
	variables  []variable
	met        int                    // words that are written
	atomic     []uint32               // the steps that are atomic operations of the program's
	atomicUses map[uint32][]atomicUse // of variables
	values     table                  // of several words, of which the first isn't kept: which variable stands for it
	refs       []uint32               // of each word that an access is about, in their order: its place in the list
	hasPassed  bool                   // private orders have passed some memory on
	lines      []uint32               // of each number of steps: one more than the first access after so many
}

// empty forgets all. Room for many accesses is given back.
func (m *memory) empty(records int) {
	if cap(m.uses) > 2*records || cap(m.blocks) > records || cap(m.refs) > 2*records {
		m.uses, m.blocks, m.words, m.refs = nil, nil, nil, nil
	}
	m.uses, m.blocks, m.words, m.variables, m.refs = m.uses[:0], m.blocks[:0], m.words[:0], m.variables[:0], m.refs[:0]
	m.met, m.atomic, m.atomicUses, m.hasPassed = 0, m.atomic[:0], map[uint32][]atomicUse{}, false
	m.byBlock.empty()
	m.values.empty()
}

// eachBlock calls f with the cells of n words, block by block. add: also with those of words that have none yet.
func (m *memory) eachBlock(key uint64, n int, add bool, f func(cells []uint32)) {
	for n > 0 {
		first := int(key >> 16 % blockWords)
		end := first + n
		if end > blockWords {
			end = blockWords
		}
		if b := m.blockAt(key-uint64(first)<<16, add); b != nil {
			f(b.cells[first:end])
		}
		n -= end - first
		key += uint64(end-first) << 16
	}
}

// blockAt is the block with a key, nil if there is none and none is added.
func (m *memory) blockAt(key uint64, add bool) *block {
	at, ok := m.byBlock.get(key)
	if !ok {
		if !add {
			return nil
		}
		at, _ = m.byBlock.add(key, uint32(len(m.blocks)))
		m.blocks = append(withRoom(m.blocks), block{key: key})
	}
	return &m.blocks[at]
}

// touch notes that a goroutine accesses n words. add: also words that nobody is known to write.
func (m *memory) touch(key uint64, n int, by, how uint32, add, writes bool) {
	user := (by + 1) << userShift
	if writes {
		how |= cellWritten
	}
	m.eachBlock(key, n, add, func(cells []uint32) {
		for i, c := range cells {
			if c == 0 {
				c = user
			} else if c>>userShift<<userShift != user {
				c |= cellSeveral
			}
			cells[i] = c | how
		}
	})
}

// findWords finds the words that several goroutines use, and that one of them writes. all: all words are wanted.
func (m *memory) findWords(all bool) {
	for i := range m.blocks {
		b := &m.blocks[i]
		for k, c := range b.cells {
			isWanted := c&cellPlain != 0 && all
			if isWanted || c&(cellPlain|cellWritten) == cellPlain|cellWritten {
				m.met++
			}
			if b.cells[k] = 0; isWanted || c&mayRace == mayRace {
				m.words = append(withRoom(m.words), word{key: b.key + uint64(k)<<16})
				b.cells[k] = uint32(len(m.words))
			}
		}
	}
}

// wordAt is the word with a key, nil if it isn't one that may be in a race.
func (m *memory) wordAt(key uint64) (w *word) {
	m.eachBlock(key, 1, false, func(cells []uint32) {
		if cells[0] != 0 {
			w = &m.words[cells[0]-1]
		}
	})
	return w
}

// each calls f with where each variable is that begins at a byte of a mask.
func (w *word) each(mask uint8, f func(at uint32)) {
	for part := w.starts & mask; part != 0; part &= part - 1 {
		f(w.at + uint32(bits.OnesCount8(w.starts&(part&-part-1))))
	}
}

// use notes an access.
func (v *variable) use(write bool, f facts, number uint32) {
	kind := 1
	if write {
		kind = 0
	}
	if v.uses[kind] == 0 {
		v.uses[kind] = number
	}
	v.uses[2] = number
	switch {
	case f&isPrivate != 0:
		v.is |= usedPrivately
	case f&isOwn != 0 || write && f&(beneath|isKin) == 0:
		if v.is |= usedOpenly; f&beneath == 0 {
			v.is |= usedOutside
		}
	}
	if f&ofMap != 0 {
		v.is |= usedAsMap
	}
	if write && f&isPassing != 0 {
		v.is |= passedOn
	}
}

// useBy notes who accesses it.
func (v *variable) useBy(user uint32, write bool, f facts) {
	if v.user == 0 {
		v.user = user
	} else if v.user != user {
		v.is |= several
	}
	switch {
	case write && f&isPrivate == 0:
		v.is |= written
	case write:
		v.is |= writtenPrivately
	}
}

// useAtomic notes an atomic operation.
func (v *variable) useAtomic(user uint32, writes bool) {
	if v.atomicBy == 0 {
		v.atomicBy = user
	} else if v.atomicBy != user {
		v.is |= severalAtomics
	}
	if writes {
		v.is |= atomicWritten
	}
}

// isPrivate reports whether a variable is memory of functions whose orders don't count: it is in no race, whatever the trace says.
func (v *variable) isPrivate() bool { return v.is&usedPrivately != 0 && v.is&usedOpenly == 0 }

// decide finds out whether several goroutines use a variable, and one of them writes it: by plain accesses, or by plain ones of
// one and atomic ones of another. What a private function writes counts if the program uses it elsewhere too: not in a Writer, which
// gets memory of package fmt.
func (v *variable) decide() (races bool) {
	if v.user == 0 || v.isPrivate() {
		return false
	}
	writes := v.is&written != 0 || v.is&writtenPrivately != 0 && v.is&usedOutside != 0
	if v.atomicBy != 0 && (writes || v.is&atomicWritten != 0) && (v.is&(several|severalAtomics) != 0 || v.atomicBy != v.user) {
		v.is |= racesAtomically
	}
	return writes && v.is&several != 0
}

// findVariables gives each word its variables, and notes what accesses are about them.
func (t *Translator) findVariables() {
	for _, i := range t.atomic {
		if w := t.wordAt(t.steps[i].word()); w != nil {
			mask := t.steps[i].bytes()
			w.starts |= mask & -mask
			w.uses += hashOf(w.key) // so it is unlike any other
		}
	}
	t.joinWords()
	for i := range t.words {
		w := &t.words[i]
		w.at = uint32(len(t.variables))
		for n := bits.OnesCount8(w.starts); n > 0; n-- {
			t.variables = append(withRoom(t.variables), variable{})
		}
	}
	for i := range t.uses {
		u := &t.uses[i]
		m := &t.all[u.at]
		f, alone := t.factsAt(m.site), t.isAlone(m.pos)
		t.eachPart(u, func(at uint32) {
			v := &t.variables[at]
			if v.use(u.isWrite(), f, uint32(i+1)); !alone {
				v.useBy(m.by+1, u.isWrite(), f)
			}
		})
	}
	t.eachAtomicPart(func(i, at uint32) { t.variables[at].useAtomic(t.steps[i].by+1, t.steps[i].writes()) })
}

// joinWords leaves out the words that have the same accesses as those before them: these stand for them.
func (t *Translator) joinWords() {
	for i := range t.words {
		w := &t.words[i]
		before := t.wordAt(w.key - 1<<16)
		w.isPart = before != nil && w.uses == before.uses && w.starts == before.starts && w.starts&(w.starts-1) == 0
	}
	refs := t.refs[:0]
	for i := range t.uses {
		u := &t.uses[i]
		begin := len(refs)
		for _, ref := range t.refsOf(u) {
			if w := &t.words[ref]; !w.isPart {
				refs = append(refs, ref)
			} else {
				w.starts = 0
			}
		}
		u.refs, u.n = uint32(begin), uint16(len(refs)-begin)
	}
	t.refs = refs
}

// chooseVariables numbers the variables that several goroutines use in a way that may race.
func (t *Translator) chooseVariables() {
	for i := range t.words {
		w := &t.words[i]
		w.each(0xff, func(at uint32) {
			if v := &t.variables[at]; v.decide() || t.Trace.All && v.user != 0 && !v.isPrivate() {
				v.id = t.variable(w, at)
			}
		})
	}
	t.eachAtomicPart(func(i, at uint32) {
		s := &t.steps[i]
		if t.variables[at].is&racesAtomically != 0 && t.atomicOf(at, s.by) == 0 {
			id := t.variable(t.wordAt(s.word()), at)
			t.objects[id].Kind = trace.Atomic
			t.atomicUses[at] = append(t.atomicUses[at], atomicUse{s.by, id})
		}
	})
}

// variable numbers a variable of a word.
func (t *Translator) variable(w *word, at uint32) (id uint32) {
	var o trace.Object
	if t.variables[at].is&usedAsMap != 0 {
		o.Kind = trace.Map
	}
	id = t.objectAt(o, kindVariable, 0, w.addressOf(at-w.at))
	n := &t.unnamed[len(t.unnamed)-1]
	n.variable, n.gen = at, uint16(w.key)
	return id
}

// passOn has memory that private orders pass on to a goroutine, which writes there, be another variable from now on: what those
// did who had it before comes before.
func (t *Translator) passOn(at, by uint32) {
	v := &t.variables[at]
	if v.holder != 0 && v.holder != by+1 {
		t.hasPassed = true
		before := t.unnamed[v.id-1]
		v.id = t.objectAt(trace.Object{Kind: t.objects[v.id].Kind}, kindVariable, 0, before.addr)
		n := &t.unnamed[len(t.unnamed)-1]
		n.variable, n.gen = before.variable, before.gen
	}
	v.holder = by + 1
}

// dropAlone leaves out what one goroutine alone did with memory while it had that.
func (t *Translator) dropAlone() {
	const many = 1<<32 - 1
	users := make([]uint32, len(t.objects)) // one more than who uses it
	each := func(f func(r *trace.Record)) {
		for i := range t.out {
			if r := &t.out[i]; r.Op == trace.Read || r.Op == trace.Write {
				f(r)
			}
		}
	}
	each(func(r *trace.Record) {
		if u := &users[r.Object]; *u == 0 {
			*u = r.Goroutine + 1
		} else if *u != r.Goroutine+1 {
			*u = many
		}
	})
	each(func(r *trace.Record) {
		if t.variables[t.unnamed[r.Object-1].variable].is&passedOn != 0 && users[r.Object] != many {
			r.Op = trace.None
		}
	})
}

// atomicOf is the variable for a goroutine's atomic operations on a variable, 0 if there is none.
func (t *Translator) atomicOf(at, by uint32) (id uint32) {
	for _, of := range t.atomicUses[at] {
		if of.by == by {
			return of.id
		}
	}
	return 0
}

// eachPart calls f with each variable that an access is about.
func (t *Translator) eachPart(u *use, f func(at uint32)) {
	for _, ref := range t.refsOf(u) {
		t.words[ref].each(u.mask(), f)
	}
}

// eachAtomicPart calls f with the place of each atomic operation among the steps, and each variable that it is about.
func (t *Translator) eachAtomicPart(f func(i, at uint32)) {
	for _, i := range t.atomic {
		s := &t.steps[i]
		if w := t.wordAt(s.word()); w != nil {
			w.each(s.bytes(), func(at uint32) { f(i, at) })
		}
	}
}

// addressOf is that of the variable of a word that is the n-th to begin there.
func (w *word) addressOf(n uint32) uint64 {
	starts := w.starts
	for ; n > 0; n-- {
		starts &= starts - 1
	}
	return w.key>>16<<3 + uint64(bits.TrailingZeros8(starts))
}
