package translate

import (
	"gorace.local/recorder/internal/hooklog"
	"gorace.local/recorder/internal/trace"
)

// lock is a Mutex or a RWMutex, up to where another lock is found in its memory.
type lock struct {
	id        uint32
	held      bool
	readers   uint32
	exclusive bool // it was locked in this segment, or released

	by   uint32    // one more than the goroutine that has locked it last, 0 where others came to it since
	row  int       // so many times before it has, with no other one between
	last [2]uint32 // where the records of the last time are: the lock and the unlock
}

// newLock is a lock in the place of one that isn't known, or that was held, so its memory was set anew.
func (t *Translator) newLock(s *step, kind int) *lock {
	o := trace.Object{Kind: [...]trace.ObjectKind{trace.Mutex, trace.RWMutex}[kind]}
	return t.locks[kind].put(s.key, lock{id: t.objectAt(o, KindLock, s.site(), s.addr())})
}

// lock is a step about a lock.
func (t *Translator) lock(s *step) {
	kind := 1
	switch s.op() {
	case hooklog.Lock, hooklog.TryLock, hooklog.TryFail, hooklog.Unlock:
		kind = 0
	}
	l := t.locks[kind].get(s.key)
	if l == nil {
		l = t.newLock(s, kind)
	}
	switch s.op() {
	case hooklog.Lock, hooklog.WLock:
		t.acquireLock(l, s, kind, trace.Lock)
	case hooklog.TryLock, hooklog.TryWLock:
		t.acquireLock(l, s, kind, trace.TryLock)
	case hooklog.Unlock, hooklog.WUnlock:
		t.releaseLock(l, s)
	case hooklog.RLock:
		t.acquireRead(l, s, trace.ReadLock)
	case hooklog.TryRLock:
		t.acquireRead(l, s, trace.TryReadLock)
	case hooklog.RUnlock:
		t.releaseRead(l, s)
	case hooklog.TryFail, hooklog.TryRFail:
		l.by = 0
		t.note(trace.TryFail, l.id, s)
	}
}

// acquireLock locks a lock. The time before is one among others if the goroutine has done so before that, too, with no other one
// between.
func (t *Translator) acquireLock(l *lock, s *step, kind int, op trace.Op) {
	if l.held || l.readers > 0 {
		l = t.newLock(s, kind)
	}
	l.held, l.exclusive = true, true
	if l.by != s.by+1 {
		l.by, l.row = s.by+1, 0
	} else if l.row++; l.row >= 2 && t.out[l.last[0]].Op == trace.Lock {
		t.out[l.last[0]].Kind, t.out[l.last[1]].Kind = trace.IsAmong, trace.IsAmong
	}
	l.last[0] = uint32(len(t.out))
	t.note(op, l.id, s)
}

// releaseLock is an unlock. What wasn't locked in this segment was at its begin.
func (t *Translator) releaseLock(l *lock, s *step) {
	if !l.held && !l.exclusive && l.readers == 0 {
		t.bring(l.id, trace.Lock, 0)
		l.held = true
	}
	if l.held {
		l.held, l.exclusive = false, true
		if l.last[1] = uint32(len(t.out)); l.by != s.by+1 {
			l.by = 0
		}
		t.note(trace.Unlock, l.id, s)
	}
}

func (t *Translator) acquireRead(l *lock, s *step, op trace.Op) {
	if l.held {
		l = t.newLock(s, 1)
	}
	l.readers++
	l.by = 0
	t.note(op, l.id, s)
}

// releaseRead is an unlock of who read. As long as nobody has locked it for writing, more may do so than have locked it in
// this segment.
func (t *Translator) releaseRead(l *lock, s *step) {
	if l.readers == 0 && !l.exclusive {
		t.bring(l.id, trace.ReadLock, 0)
		l.readers++
	}
	if l.readers > 0 {
		l.readers--
		t.note(trace.ReadUnlock, l.id, s)
	}
}
