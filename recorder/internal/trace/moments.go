package trace

import "strings"

// A Deed is something that a goroutine did which may order it after others, or others after it.
type Deed struct {
	What, Place string
	LeftOut     string // the lock's name, if the trace leaves it out
}

func (d Deed) String() string { return d.What + " at " + d.Place }

// A Moment is what a goroutine held before an event, and its last deed, also where the trace leaves these out, since one
// goroutine alone used the lock.
type Moment struct {
	Locks []Deed // the oldest first
	Last  Deed
	Stack uint32 // of an access: the number of the calls that led there, 0 for none known

	Goroutine uint32 // of an access: its number in the records

	Change bool // the event is the read of a change, whose write comes after it
}

// String tells a moment after the name of an access.
func (m Moment) String() string {
	var held []string
	for _, l := range m.Locks {
		held = append(held, l.String())
	}
	switch n := len(m.Locks); {
	case n == 0 && m.Last.What == "":
		return "without a lock"
	case n == 0:
		return "without a lock, after " + m.Last.String()
	case m.Locks[n-1] == m.Last:
		return "after " + strings.Join(held, ", ")
	}
	return "after " + strings.Join(held, ", ") + ", last " + m.Last.String()
}

// LeftOut are the locks of a moment that the trace leaves out.
func (m Moment) LeftOut() []string {
	var names []string
	for _, d := range append(m.Locks[:len(m.Locks):len(m.Locks)], m.Last) {
		if d.LeftOut != "" {
			names = append(names, d.LeftOut)
		}
	}
	return names
}

// holding is a lock that a goroutine holds.
type holding struct {
	lock    uint32
	reading bool
	since   Deed
}

// follower follows what goroutines hold and do.
type follower struct {
	*Trace
	held  [][]holding // by goroutine
	last  []Deed
	left  map[uint32]string // the names of what is left out, by object
	taken names             // those of the trace, and of what it leaves out
}

// Moments are those of the wanted events, which are counted from 1.
func (t *Trace) Moments(wanted map[int]bool) map[int]Moment {
	n := len(t.goroutines)
	f := &follower{Trace: t, held: make([][]holding, n), last: make([]Deed, n), left: map[uint32]string{}, taken: names{}}
	for i := range t.objects {
		f.taken[t.objects[i].name] = 1
	}
	moments, event := map[int]Moment{}, 0
	for i := range t.Records[:t.end] {
		r := &t.Records[i]
		for n := t.events[i]; n > 0; n-- {
			if event++; wanted[event] {
				moments[event] = f.moment(r, n > 1 && t.isChange(r))
			}
		}
		f.follow(r)
	}
	return moments
}

func (f *follower) moment(r *Record, change bool) Moment {
	m := Moment{Last: f.last[r.Goroutine], Change: change}
	if r.Op == Read || r.Op == Write {
		m.Stack, m.Goroutine = r.OtherSite, r.Goroutine
	}
	for _, h := range f.held[r.Goroutine] {
		m.Locks = append(m.Locks, h.since)
	}
	return m
}

// name is that of an object. Two that the trace leaves out have two names.
func (f *follower) name(id uint32) string {
	name, is := f.objects[id].name, f.Objects[id]
	switch {
	case is.Kind == Order:
		return f.Sites[is.Site].Name
	case name != "":
		return name
	case f.left[id] == "":
		f.left[id] = f.taken.take(f.Sites[is.Site].Name)
	}
	return f.left[id]
}

// follow takes in a record.
func (f *follower) follow(r *Record) {
	g, place := r.Goroutine, f.Sites[r.Site].Place
	switch r.Op {
	case Go:
		if r.Site != 0 && GoKind(r.Kind) != GoEarlier { // else nobody knows who started it, or it wasn't now
			f.last[g] = Deed{What: "go of " + f.goroutines[r.Other].name, Place: place}
		}
		f.last[r.Other] = Deed{What: "its start", Place: place}
		return
	case Exit:
		f.held[g] = nil
		return
	case Meet:
		f.last[g] = Deed{What: "send on " + f.name(r.Object), Place: place}
		f.last[r.Other] = Deed{What: "receive from " + f.name(r.Object), Place: f.Sites[r.OtherSite].Place}
		return
	}
	if int(r.Op) >= len(deeds) || deeds[r.Op] == "" {
		return
	}
	what, name := deeds[r.Op], f.name(r.Object)
	if name == "" { // as of what the standard library orders
		what = strings.TrimSuffix(what, " through ")
	}
	d := Deed{What: what + name, Place: place}
	if kind := f.Objects[r.Object].Kind; (kind == Mutex || kind == RWMutex) && f.objects[r.Object].name == "" {
		d.LeftOut = name
	}
	f.last[g] = d
	switch r.Op {
	case Lock, TryLock:
		f.held[g] = append(f.held[g], holding{r.Object, false, d})
	case ReadLock, TryReadLock:
		f.held[g] = append(f.held[g], holding{r.Object, true, d})
	case Unlock, ReadUnlock:
		f.release(g, r.Object, r.Op == ReadUnlock)
	}
}

// release ends a holding: the goroutine's own, or the first one of another, whose lock it may unlock.
func (f *follower) release(g, lock uint32, reading bool) {
	for other := 0; !f.drop(g, lock, reading) && other < len(f.held); other++ {
		g = uint32(other)
	}
}

func (f *follower) drop(g, lock uint32, reading bool) bool {
	list := f.held[g]
	for i := len(list) - 1; i >= 0; i-- {
		if list[i].lock == lock && list[i].reading == reading {
			f.held[g] = append(list[:i:i], list[i+1:]...)
			return true
		}
	}
	return false
}
