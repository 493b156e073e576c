package trace

import (
	"fmt"
	"strconv"
)

// kinds say how objects are declared. Those that are counted as the same share a limit.
var kinds = [...]struct{ word, counted, after string }{
	Variable: {"var", "variables", ""},
	Map:      {"var", "variables", ""},
	Content:  {"var", "variables", ""},
	Atomic:   {"var", "variables", "_atomic_"},
	Channel:  {"chan", "channels", ""},
	Order:    {"chan", "channels", "_order"},
	Mutex:    {"mutex", "locks", ""},
	RWMutex:  {"rwmutex", "locks", ""},
	Once:     {"once", "onces", ""},
}

// declare declares what the trace has where it is used first, up to where a limit is reached.
func (t *Trace) declare() {
	t.names, t.counts = names{"main": 1}, map[string]int{}
	t.goroutines[0].name = "main"
	for g := 1; g < len(t.goroutines); g++ {
		if is := &t.goroutines[g]; is.alive {
			is.name = "g" + strconv.Itoa(is.number)
			t.names[is.name] = 1
		}
	}
	events := 0
	for i := 0; i < t.end; i++ {
		t.declareRecord(i)
		if events += int(t.events[i]); events > t.Events {
			t.cutAt(i, fmt.Sprintf("more than %s events", thousands(t.Events)))
		}
	}
}

// cutAt cuts the trace off.
func (t *Trace) cutAt(i int, why string) {
	if i < t.end {
		t.end, t.cut = i, why
	}
}

// declareRecord declares what a record uses, and finds out what depends on who is alive.
func (t *Trace) declareRecord(i int) {
	r := &t.Records[i]
	switch {
	case r.Op == Exit:
		if t.isExit(i) {
			t.events[i] = 1
		}
	case r.Op == Default:
		for _, c := range t.keptCases(i) {
			t.events[i] = 1
			t.declareObject(i, c.Object)
		}
	case t.events[i] == 0:
	case r.Op == Go:
		t.declareGoroutine(i, r)
	default:
		t.declareObject(i, r.Object)
		t.buffer(i, r)
	}
}

func (t *Trace) declareGoroutine(i int, r *Record) {
	child := &t.goroutines[r.Other]
	if !child.lent {
		fmt.Fprintf(&t.text, "goroutine %s\n", child.name)
	} else if t.hasRoom(i, "channels") {
		child.begin = t.names.take("go")
		fmt.Fprintf(&t.text, "chan %s 0\n", child.begin)
		t.lent++
	}
	t.kept++
}

// hasRoom counts one more of what shares a limit.
func (t *Trace) hasRoom(i int, counted string) bool {
	if t.counts[counted] == maxKind {
		t.cutAt(i, "more than "+thousands(maxKind)+" "+counted)
		return false
	}
	t.counts[counted]++
	return true
}

// declareObject declares an object that has no name yet.
func (t *Trace) declareObject(i int, id uint32) {
	o, is := &t.objects[id], &t.Objects[id]
	kind := &kinds[is.Kind]
	if id == 0 || o.name != "" || !t.hasRoom(i, kind.counted) {
		return
	}
	name := t.Sites[is.Site].Name + kind.after
	if is.Kind == Atomic {
		name += t.goroutines[is.By].name
	}
	o.name = t.names.take(name)
	t.text.WriteString(kind.word + " " + o.name)
	if kind.word == "chan" {
		capacity := is.Capacity
		if capacity > maxKind {
			capacity = maxKind // the most that a trace has: it orders more than Go does
		}
		fmt.Fprintf(&t.text, " %d", capacity)
	}
	t.text.WriteByte('\n')
}

// buffer counts the values in a channel whose capacity no trace has.
func (t *Trace) buffer(i int, r *Record) {
	o := &t.objects[r.Object]
	switch {
	case r.Op != Send && r.Op != Receive || t.Objects[r.Object].Capacity <= maxKind:
	case r.Op == Receive:
		o.waiting--
	case o.waiting == maxKind:
		t.cutAt(i, "more than "+thousands(maxKind)+" values in a channel")
	default:
		o.waiting++
	}
}
