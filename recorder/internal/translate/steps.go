package translate

import (
	"gorace.local/recorder/internal/hooklog"
	"gorace.local/recorder/internal/trace"
)

// follow notes of each goroutine its last step among the first n, and whether it has ended; of a new one, how it was started.
func (t *Translator) follow(n int) {
	for i := range t.who {
		a := &t.who[i]
		a.last, a.ended, a.started, a.start, a.open, a.finalize = a.before, a.gone, 0, 0, 0, false
	}
	if t.firstGo = 0; t.segments == 0 {
		t.firstGo = never
	}
	for i := range t.steps[:n] {
		s := &t.steps[i]
		seq := t.store.first + uint64(i)
		by := &t.who[s.by]
		by.last = seq
		if by.started < t.firstGo && s.op() != hooklog.Finalizer && !t.isLeftOut(s) {
			t.meets(by)
		}
		switch op := s.op(); op {
		case hooklog.Go:
			t.followGo(s, seq)
		case hooklog.Exit:
			by.ended = true
		case hooklog.Meet, hooklog.Edge:
			t.who[s.other()].last = seq
		case hooklog.Send, hooklog.Receive, hooklog.ReceiveClosed:
			if s.other() != 0 {
				t.who[s.other()-1].last = seq
			}
		}
	}
}

// followGo notes how a goroutine is started. One that the runtime starts for itself begins once it does something of the program's.
func (t *Translator) followGo(s *step, seq uint64) {
	child, f := &t.who[s.other()], t.factsAt(s.site())
	if child.isMain() {
		return
	}
	child.started, child.site, child.system, child.foreign = seq, s.site(), f&inRuntime != 0, f&inLibrary != 0
	if !child.system && child.label == "" {
		child.label = t.who[s.by].label
	}
}

const never = 1<<64 - 1

// meets notes that a goroutine does something: from its go on main isn't alone; if that isn't known, it never was.
func (t *Translator) meets(a *actor) {
	switch {
	case a.isMain():
	case a.site == 0 || a.system:
		t.firstGo = 0
	case a.started < t.firstGo:
		t.firstGo = a.started
	}
}

// isLeftOut reports whether a step isn't the program's.
func (t *Translator) isLeftOut(s *step) bool {
	op, f := s.op(), t.factsAt(s.site())
	switch {
	case op == hooklog.Exit:
		a := &t.who[s.by]
		return a.isMain() || a.segment != t.attempt
	case op == hooklog.Go || op >= hooklog.Send && op <= hooklog.CaseReceive:
		return f&inRuntime != 0
	case isAtomic(op):
		return f&inLock != 0
	case op >= hooklog.Acquire && op <= hooklog.ReleaseAcquire || op >= hooklog.Lock && op <= hooklog.OnceDone:
		return f&isPrivate != 0
	}
	return false
}

// step translates a step.
func (t *Translator) step(s *step, seq uint64) {
	if t.isLeftOut(s) {
		return
	}
	op := s.op()
	if t.who[s.by].finalize && op != hooklog.Finalizer {
		t.finalizer(s.by, seq)
	}
	switch {
	case op == hooklog.Go:
		t.start(s)
	case op == hooklog.Exit:
		t.exit(s)
	case op == hooklog.Finalizer:
		t.who[s.by].finalize = true
		if t.who[s.by].accesses == t.attempt {
			t.finalizer(s.by, seq)
		}
	case op >= hooklog.Acquire && op <= hooklog.ReleaseAcquire:
		t.order(s)
	case isAtomic(op):
		t.atomicStep(s)
	case op == hooklog.Default:
		t.defaultOf(s, seq)
	case op == hooklog.DefaultSend || op == hooklog.DefaultReceive:
		t.singleDefault(s)
	case op >= hooklog.Send && op <= hooklog.ReceiveClosed:
		t.channel(s)
	case op >= hooklog.OnceBegin && op <= hooklog.OnceDone:
		t.once(s)
	case op >= hooklog.Lock && op <= hooklog.TryRFail:
		t.lock(s)
	case op == hooklog.Edge:
		t.edge(s)
	}
}

// start is a go. If it is the library's, on behalf of the program, the goroutine begins once it does something of the program's.
func (t *Translator) start(s *step) {
	child := &t.who[s.other()]
	if child.isMain() || child.segment == t.attempt {
		return
	}
	r := trace.Record{Site: t.placeAt(s.site()), OtherSite: s.site()}
	if child.foreign {
		r.Kind = uint8(trace.GoForeign)
		child.start, child.starter = uint32(len(t.out)+1), s.by
	} else {
		child.segment = t.attempt
		r.Op, r.Goroutine = trace.Go, t.number(s.by)
		t.give(child)
		r.Other = child.number
	}
	t.put(r)
}

// exit is the end of a goroutine. One that is in the function of a once, as what is known of it has it, has none.
func (t *Translator) exit(s *step) {
	if t.who[s.by].open == 0 {
		t.note(trace.Exit, 0, s)
	}
}

// record is one of a step by its goroutine.
func (t *Translator) record(op trace.Op, object uint32, s *step) trace.Record {
	return trace.Record{Op: op, Object: object, Goroutine: t.number(s.by), Site: t.placeAt(s.site())}
}

// note appends a record of a step by its goroutine.
func (t *Translator) note(op trace.Op, object uint32, s *step) { t.put(t.record(op, object, s)) }
