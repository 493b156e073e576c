package translate

// moment is when a goroutine was at a site: after a step, and before its own next one.
type moment struct {
	pos  uint64
	by   uint32 // among the actors
	site uint32
}

// moments are those that accesses may be about. Most of a segment's have numbers close to one another.
type moments struct {
	all    []moment
	before []moment // those of the segment that was made last
	ids    []uint32
	base   uint32   // the first number that has a slot
	slots  []uint32 // from there: one more than where a moment is in the list
	others table    // of moments with numbers that have none
	most   uint32   // the highest number
}

const (
	mostIndexed = 1 << 21
	stillUsed   = 1 << 14 // numbers below the highest one that goroutines may still use
)

func (m *moments) addMoment(id uint32, of moment) {
	next := uint32(len(m.all))
	if at := id - m.base; at < mostIndexed {
		for at >= uint32(len(m.slots)) {
			m.slots = append(m.slots, 0)
		}
		if m.slots[at] != 0 {
			return
		}
		m.slots[at] = next + 1
	} else if _, isNew := m.others.add(uint64(id), next); !isNew {
		return
	}
	if id > m.most {
		m.most = id
	}
	m.all, m.ids = append(withRoom(m.all), of), append(withRoom(m.ids), id)
}

// momentAt is where a moment is in the list.
func (m *moments) momentAt(id uint32) (at uint32, ok bool) {
	if at := id - m.base; at < mostIndexed {
		if at >= uint32(len(m.slots)) || m.slots[at] == 0 {
			return 0, false
		}
		return m.slots[at] - 1, true
	}
	return m.others.get(uint64(id))
}

// isOver reports whether a moment was over before the segment: its goroutine has done a step since, in an earlier one.
func (t *Translator) isOver(m *moment) bool {
	return m.pos+1 < t.store.first && m.pos < t.who[m.by].before
}

// goesOn reports whether a moment goes on after the steps of the segment: its goroutine has done none since. Then what is done at it
// may as well be done after them.
func (t *Translator) goesOn(m *moment) bool {
	a := &t.who[m.by]
	return !a.ended && a.last <= m.pos
}

// carryMoments leaves those that accesses of later segments may be about: what comes after the last step, or goes on there.
func (t *Translator) carryMoments(last uint64) {
	all, ids := t.all, t.ids
	t.moments.before, t.all, t.ids, t.slots = all, t.moments.before[:0], t.ids[:0], t.slots[:0]
	t.others.empty()
	if t.base = 1; t.most > stillUsed {
		t.base = t.most - stillUsed
	}
	room := t.Records/4 + 1
	for i := range all {
		m := all[i]
		if m.pos >= last || len(t.all) < room && t.goesOn(&m) {
			t.addMoment(ids[i], m)
		}
	}
}
