package translate

import (
	"gorace.local/recorder/internal/hooklog"
	"gorace.local/recorder/internal/trace"
)

// once is a sync.Once, up to where another one begins in its memory.
type once struct {
	id    uint32
	by    uint32 // who runs its function, among the actors
	ended bool
	own   bool // the Do that has run the function hasn't returned yet
}

func (t *Translator) newOnce(s *step) *once {
	id := t.objectAt(trace.Object{Kind: trace.Once}, KindOnce, s.site(), s.addr())
	return t.onces.put(s.key, once{id: id, by: s.by})
}

// once is a step about a once.
func (t *Translator) once(s *step) {
	switch o := t.onces.get(s.key); s.op() {
	case hooklog.OnceBegin:
		t.who[s.by].open++
		t.note(trace.OnceBegin, t.newOnce(s).id, s)
	case hooklog.OnceEnd:
		t.endOnce(o, s)
	case hooklog.OnceDone:
		t.doneOnce(o, s)
	}
}

// endOnce is the end of a once's function, which was under way at the beginning of the segment if it didn't begin in it.
func (t *Translator) endOnce(o *once, s *step) {
	if o == nil {
		o = t.newOnce(s)
		t.begun = append(t.begun, t.record(trace.OnceBegin, o.id, s))
		t.who[s.by].open++
	}
	if !o.ended && o.by == s.by {
		o.ended, o.own = true, true
		t.who[s.by].open--
		t.note(trace.OnceEnd, o.id, s)
	}
}

// doneOnce is the return of a Do. The function had ended at the beginning of the segment if it isn't known in it.
func (t *Translator) doneOnce(o *once, s *step) {
	if o == nil {
		o = t.newOnce(s)
		t.bring(o.id, trace.OnceBegin, 0)
		t.bring(o.id, trace.OnceEnd, 0)
		o.ended = true
	}
	switch {
	case !o.ended:
	case o.by == s.by && o.own:
		o.own = false
	default:
		t.note(trace.OnceDone, o.id, s)
	}
}
