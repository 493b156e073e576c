package trace

// object is what is known of an object.
type object struct {
	user    uint32 // one more than the first goroutine that uses it, 0 for none
	several bool   // more than one goroutine uses it
	waiting int32  // of a channel: values in its buffer
	name    string // in the trace, "" for none
}

// goroutine is what is known of one.
type goroutine struct {
	last   int  // its last record
	alive  bool // it does something that the trace has, or starts one that does
	number int  // of its name, which several may have one after another
	lent   bool // its name had been another's
	clock  clock
	name   string
	begin  string // the channel that stands for the go of one that is lent a name
}

// survey finds out who uses what.
func (t *Trace) survey() {
	for i := range t.Records {
		r := &t.Records[i]
		t.of(r.Goroutine).last = i
		switch r.Op {
		case None, Exit, Default:
			continue
		case Go:
			t.of(r.Other).last = i
			continue
		case Meet:
			t.of(r.Other).last = i
			t.use(r.Object, r.Other)
		case TryFail:
			if !t.hasTries() {
				continue
			}
		}
		t.use(r.Object, r.Goroutine)
	}
}

// of is what is known of a goroutine, which may be new.
func (t *Trace) of(g uint32) *goroutine {
	for int(g) >= len(t.goroutines) {
		t.goroutines = append(t.goroutines, goroutine{number: len(t.goroutines)})
	}
	return &t.goroutines[g]
}

// use notes that a goroutine uses an object.
func (t *Trace) use(id, g uint32) {
	o := &t.objects[id]
	if o.user == 0 {
		o.user = g + 1
	} else if o.user != g+1 {
		o.several = true
	}
}

// cases are those of a default.
func (t *Trace) cases(i int) []Record {
	return t.Records[i+1 : i+1+int(t.Records[i].Count)]
}

// keptCases are those on channels that the trace has, or on nil.
func (t *Trace) keptCases(i int) (kept []Record) {
	if !t.goroutines[t.Records[i].Goroutine].alive {
		return nil
	}
	for _, c := range t.cases(i) {
		if c.Object == 0 || t.keeps(c.Object) {
			kept = append(kept, c)
		}
	}
	return kept
}

// keeps reports whether an object stands in the trace: what one goroutine alone uses is left out, but for variables, which are
// told only if they may be in a race.
func (t *Trace) keeps(id uint32) bool {
	o := &t.objects[id]
	return o.several || t.All && o.user != 0 || t.Objects[id].Kind.IsVariable()
}

// eventsOf is how many events that order, read or write a record becomes.
func (t *Trace) eventsOf(r *Record) uint8 {
	switch r.Op {
	case None, Go, Exit, Default, Case:
		return 0
	case TryFail:
		if !t.hasTries() {
			return 0
		}
	case Lock, Unlock:
		if r.Kind == IsAmong && !t.All && !t.Predict {
			return 0
		}
	}
	switch {
	case !t.keeps(r.Object):
		return 0
	case t.isChange(r):
		return 2
	}
	return 1
}

// isChange reports whether a record changes what a map or an object of the standard library holds, where it has to read that
// first: what it holds then is a matter of all changes before it, and in another order none of them may be left out.
func (t *Trace) isChange(r *Record) bool {
	kind := t.Objects[r.Object].Kind
	return t.Predict && r.Op == Write && (kind == Map || kind == Content)
}

// findAlive finds how many events each record becomes, and the goroutines that the trace has.
func (t *Trace) findAlive() {
	t.goroutines[0].alive = true
	t.living = 1
	for i := len(t.Records) - 1; i >= 0; i-- {
		r := &t.Records[i]
		switch {
		case r.Op == Go:
			if t.All || t.goroutines[r.Other].alive {
				t.events[i] = 1
				t.isAlive(r.Other)
				t.isAlive(r.Goroutine)
			}
		case r.Op == Exit && t.All:
			t.isAlive(r.Goroutine)
		default:
			if t.events[i] = t.eventsOf(r); t.events[i] == 0 {
				continue
			}
			t.isAlive(r.Goroutine)
			if r.Op == Meet {
				t.isAlive(r.Other)
			}
		}
	}
}

func (t *Trace) isAlive(g uint32) {
	if is := &t.goroutines[g]; !is.alive {
		is.alive = true
		t.living++
	}
}

// isExit reports whether an exit stands in the trace. Code that isn't recorded may go on for its goroutine, and start others; and
// where names are lent, who exits may go on under another's go.
func (t *Trace) isExit(i int) bool {
	g := &t.goroutines[t.Records[i].Goroutine]
	return g.alive && g.last == i && !t.isLending()
}
