package translate

import (
	"gorace.local/recorder/internal/hooklog"
	"gorace.local/recorder/internal/trace"
)

// release is what a goroutine has done up to a point, if another comes after it: only then it has a record.
type release struct {
	addr uint64
	at   uint32 // where its record is
	by   uint32 // the number of the goroutine
	id   uint32 // 0 while nobody comes after it
	site uint32
	next uint32 // one more than the next one that counts at the same address
	last uint32 // one more than who came after it last
	kind Kind
	over bool // a later one of its goroutine stands for it
}

// ordering is what counts at an address: who acquires there comes after these releases.
type ordering struct {
	number      uint32
	first, last uint32 // one more than a release, 0 for none
	taken, upTo uint32 // one more than who has acquired last, and the last release then
	added       uint32 // releases beside others
	cost        uint32 // how often such a one was looked at

	merger uint32 // a goroutine that stands for the address, where many acquire what many release
}

// only has one release count, and no other.
func (o *ordering) only(from uint32) { o.first, o.last, o.taken, o.upTo = from, from, 0, 0 }

// orders are those of a segment.
type orders struct {
	releases []release
	library  keyed[ordering] // what the library says
	atomics  keyed[ordering] // what atomic operations do
	seen     table           // who came after which release
	own      table           // the last release of a goroutine at an address
}

func (o *orders) empty() {
	o.releases = o.releases[:0]
	o.library.empty()
	o.atomics.empty()
	o.seen.empty()
	o.own.empty()
}

// orderingAt is what counts at an address.
func orderingAt(list *keyed[ordering], key uint64) *ordering {
	if o := list.get(key); o != nil {
		return o
	}
	return list.put(key, ordering{number: uint32(len(list.all))})
}

// release notes one at an address, of the goroutine with a number.
func (t *Translator) release(by, site uint32, kind Kind, addr uint64) uint32 {
	t.orders.releases = append(t.orders.releases, release{addr: addr, at: uint32(len(t.out)), by: by, site: site, kind: kind})
	t.put(trace.Record{Goroutine: by})
	return uint32(len(t.orders.releases))
}

// acquire has a goroutine come after a release.
func (t *Translator) acquire(by, from, site uint32) {
	r := &t.orders.releases[from-1]
	if r.by == by || r.last == by+1 {
		return
	}
	if r.last != 0 {
		if _, isNew := t.orders.seen.add(uint64(from)<<24|uint64(by), 0); !isNew {
			return
		}
	}
	r.last = by + 1
	if r.id == 0 {
		r.id = t.objectAt(trace.Object{Kind: trace.Order}, r.kind, r.site, r.addr)
		q := &t.out[r.at]
		q.Op, q.Object, q.Site = trace.Release, r.id, t.placeAt(r.site)
	}
	t.put(trace.Record{Op: trace.Acquire, Object: r.id, Goroutine: by, Site: t.placeAt(site)})
}

// acquireAll has a goroutine come after all that counts at an address.
func (t *Translator) acquireAll(o *ordering, by, site uint32, addr uint64) {
	if (o.merger != 0 || o.cost > 4*o.added+mostCost) && o.first != o.last {
		t.mergeAll(o, site, addr)
	}
	from := o.first
	if o.taken == by+1 {
		from = t.orders.releases[o.upTo-1].next
	}
	o.cost += t.acquireFrom(from, by, site)
	if o.last != 0 {
		o.taken, o.upTo = by+1, o.last
	}
}

// acquireFrom has a goroutine come after a release and those that count after it, and answers how many there are.
func (t *Translator) acquireFrom(from, by, site uint32) (n uint32) {
	for ; from != 0; n++ {
		if !t.orders.releases[from-1].over {
			t.acquire(by, from, site)
		}
		from = t.orders.releases[from-1].next
	}
	return n
}

// mostCost is how often, beside four times for each, releases may be looked at before a goroutine of its own stands for
// their address.
const mostCost = 1 << 10

// mergeAll has the goroutine that stands for an address come after all that counts there, and release it as one.
func (t *Translator) mergeAll(o *ordering, site uint32, addr uint64) {
	if o.merger == 0 {
		t.numbered = append(t.numbered, "")
		o.merger = uint32(len(t.numbered))
		t.starts = append(t.starts, trace.Record{Op: trace.Go, Other: o.merger, Kind: uint8(trace.GoForeign)})
	}
	t.acquireFrom(o.first, o.merger, site)
	o.only(t.release(o.merger, site, KindOrder, addr))
}

// add has a release count beside others, but for earlier ones of its goroutine. Who has acquired all others releases
// these too.
func (t *Translator) add(o *ordering, from uint32) {
	r := &t.orders.releases[from-1]
	if o.taken == r.by+1 && o.upTo == o.last {
		o.only(from)
		o.taken, o.upTo = r.by+1, from
		return
	}
	o.added++
	key := uint64(o.number)<<24 | uint64(r.by)
	if earlier, isNew := t.orders.own.add(key, from-1); !isNew {
		t.orders.releases[earlier].over = true
		t.orders.own.set(key, from-1)
	}
	if o.last == 0 {
		o.first = from
	} else {
		t.orders.releases[o.last-1].next = from
	}
	o.last = from
}

// order is what the library tells.
func (t *Translator) order(s *step) {
	by, site, o := t.number(s.by), s.site(), orderingAt(&t.orders.library, s.key)
	if s.op() == hooklog.Acquire {
		t.acquireAll(o, by, site, s.addr())
		return
	}
	from := t.release(by, site, KindOrder, s.addr())
	switch s.op() {
	case hooklog.Release:
		o.only(from)
	case hooklog.ReleaseMerge:
		t.add(o, from)
	case hooklog.ReleaseAcquire:
		t.acquireAll(o, by, site, s.addr())
		o.only(from)
	}
}

// atomicStep is an atomic operation, which comes after the last write of its address that it may find. Where plain accesses to the
// same memory may race with it, it is an access too. Nothing comes after one whose orders are private, but it comes after others: a
// Write after the Close that ends it.
func (t *Translator) atomicStep(s *step) {
	o := orderingAt(&t.orders.atomics, s.key)
	isPrivate := t.factsAt(s.site())&isPrivate != 0
	if isPrivate && o.first == 0 {
		return
	}
	by, site := t.number(s.by), s.site()
	if s.op() != hooklog.AtomicStore && o.first != 0 {
		t.acquire(by, o.first, site)
	}
	if isPrivate {
		return
	}
	if w := t.wordAt(s.word()); w != nil && len(t.atomicUses) > 0 {
		w.each(s.bytes(), func(at uint32) { t.accessAtomically(at, s) })
	}
	if s.writes() {
		o.only(t.release(by, site, KindAtomic, s.addr()))
	}
}

// accessAtomically puts an atomic operation as an access of the variable that stands for its goroutine's.
func (t *Translator) accessAtomically(at uint32, s *step) {
	id := t.atomicOf(at, s.by)
	if id == 0 {
		return
	}
	r := t.record(trace.Read, id, s)
	if r.OtherSite = s.site(); s.writes() {
		r.Op = trace.Write
	}
	t.objects[id].By = r.Goroutine
	t.put(r)
}

// edge is the wake of a goroutine that waits on a Cond.
func (t *Translator) edge(s *step) {
	by, other := t.number(s.by), t.number(s.other())
	t.acquire(other, t.release(by, s.site(), KindWake, s.addr()), t.elementOf(s).waits)
}

// finalizer has a goroutine come after all that others have done, since nobody has the objects any more that it finalizes.
func (t *Translator) finalizer(at uint32, seq uint64) {
	t.who[at].finalize = false
	by := t.number(at)
	for i := range t.who {
		a := &t.who[i]
		if uint32(i) == at || a.segment != t.attempt && (a.ended || a.accesses != t.attempt || a.started > seq) {
			continue // it does nothing in the segment, or begins later
		}
		t.acquire(by, t.release(t.number(uint32(i)), 0, KindOrder, 0), 0)
	}
}
