package translate

import (
	"strings"
	"testing"

	"gorace.local/recorder/internal/hooklog"
	"gorace.local/recorder/internal/trace"
)

// A lock that is locked while it is held is another one in the same memory. Kinds of locks at one address differ.
func TestOverwrittenLock(t *testing.T) {
	p := newProgram(t, Options{})
	p.names[0x1000] = "mu"
	g := p.main.Go(2, p.at(1))
	p.main.Do(hooklog.Lock, 0x1000, p.at(2))
	g.Do(hooklog.TryFail, 0x1000, p.at(3))
	g.Do(hooklog.Lock, 0x1000, p.at(4))
	g.Do(hooklog.Unlock, 0x1000, p.at(5))
	p.main.Do(hooklog.TryLock, 0x1000, p.at(6))
	p.main.Do(hooklog.WLock, 0x1000, p.at(7))
	p.main.Do(hooklog.WUnlock, 0x1000, p.at(8))
	g.Do(hooklog.TryWLock, 0x1000, p.at(9))
	p.want(`
gotrace 2
goroutine g1
mutex mu
mutex mu_2
rwmutex mu_3
go main g1 main.go:1
lock main mu main.go:2
tryfail g1 mu main.go:3
lock g1 mu_2 main.go:4
unlock g1 mu_2 main.go:5
trylock main mu_2 main.go:6
lock main mu_3 main.go:7
unlock main mu_3 main.go:8
trylock g1 mu_3 main.go:9
`)
}

// Readers that held a lock at the beginning are found by unlocks, also among others, but none under a lock for writing.
func TestReadersAtTheBegin(t *testing.T) {
	p := newProgram(t, Options{})
	p.names[0x1000] = "rw"
	g := p.main.Go(2, p.at(1))
	p.main.Do(hooklog.RLock, 0x1000, p.at(2))
	p.cut()
	g.Do(hooklog.RLock, 0x1000, p.at(3))
	g.Do(hooklog.TryRLock, 0x1000, p.at(4))
	g.Do(hooklog.TryRFail, 0x1000, p.at(5))
	g.Do(hooklog.RUnlock, 0x1000, p.at(6))
	g.Do(hooklog.RUnlock, 0x1000, p.at(7))
	p.main.Do(hooklog.RUnlock, 0x1000, p.at(8))
	p.main.Do(hooklog.WLock, 0x1000, p.at(9))
	p.main.Do(hooklog.WUnlock, 0x1000, p.at(10))
	g.Do(hooklog.RUnlock, 0x1000, p.at(11))
	g.Do(hooklog.WUnlock, 0x1000, p.at(12))
	p.want(`
gotrace 2
rwmutex rw
goroutine g1
rlock main rw main.go:3
go main g1 main.go:1
rlock g1 rw main.go:3
tryrlock g1 rw main.go:4
tryfail g1 rw main.go:5
runlock g1 rw main.go:6
runlock g1 rw main.go:7
runlock main rw main.go:8
lock main rw main.go:9
unlock main rw main.go:10
`)
}

// The Do that runs the function isn't done once more at its return; one in the same memory that begins anew is another once.
func TestOnce(t *testing.T) {
	p := newProgram(t, Options{})
	p.names[0x1000] = "once"
	g := p.main.Go(2, p.at(1))
	for i := 0; i < 2; i++ {
		p.main.Do(hooklog.OnceBegin, 0x1000, p.at(2))
		p.main.Do(hooklog.OnceEnd, 0x1000, p.at(2))
		p.main.Do(hooklog.OnceDone, 0x1000, p.at(2))
		p.main.Do(hooklog.OnceDone, 0x1000, p.at(3))
		g.Do(hooklog.OnceDone, 0x1000, p.at(4))
	}
	p.want(`
gotrace 2
goroutine g1
once once
once once_2
go main g1 main.go:1
oncebegin main once main.go:2
onceend main once main.go:2
oncedone main once main.go:3
oncedone g1 once main.go:4
oncebegin main once_2 main.go:2
onceend main once_2 main.go:2
oncedone main once_2 main.go:3
oncedone g1 once_2 main.go:4
`)
}

// Onces that a goroutine was in at the beginning, one within another, end in the right order.
func TestOncesWithinOthers(t *testing.T) {
	p := newProgram(t, Options{})
	p.names[0x1000], p.names[0x1100] = "outer", "inner"
	g := p.main.Go(2, p.at(1))
	g.Do(hooklog.OnceBegin, 0x1000, p.at(2))
	g.Do(hooklog.OnceBegin, 0x1100, p.at(3))
	p.cut()
	g.Do(hooklog.OnceEnd, 0x1100, p.at(4))
	g.Do(hooklog.OnceEnd, 0x1000, p.at(5))
	p.main.Do(hooklog.OnceDone, 0x1000, p.at(6))
	p.main.Do(hooklog.OnceDone, 0x1100, p.at(7))
	p.want(`
gotrace 2
goroutine g1
once outer
once inner
go main g1 main.go:1
oncebegin g1 outer main.go:5
oncebegin g1 inner main.go:4
onceend g1 inner main.go:4
onceend g1 outer main.go:5
oncedone main outer main.go:6
oncedone main inner main.go:7
`)
}

// Where a goroutine holds a lock again and again, with no other one between, the first time and the last order all; but what
// predicts goes by each. An access in between is still told to hold the lock.
func TestTimesInARow(t *testing.T) {
	for predict, want := range map[bool]int{false: 2, true: 4} {
		p := newProgram(t, Options{Trace: trace.Options{Predict: predict}})
		p.names[0x1000], p.names[0x2000] = "mu", "n"
		g := p.main.Go(2, p.at(1))
		for line := 11; line <= 14; line++ {
			p.main.Do(hooklog.Lock, 0x1000, p.at(2))
			p.main.Write(0x2000, p.at(line))
			p.main.Do(hooklog.Unlock, 0x1000, p.at(3))
		}
		g.Do(hooklog.Lock, 0x1000, p.at(4))
		g.Do(hooklog.TryFail, 0x1000, p.at(5))
		g.Do(hooklog.Unlock, 0x1000, p.at(6))
		g.Write(0x2000, p.at(15))
		if _, err := p.r.Read(p.f.Translator, 1<<20); err != nil {
			t.Fatal(err)
		}
		s := p.f.Segment(true)
		text := p.text(s)
		if n := strings.Count(text, "\nlock main "); n != want || strings.Count(text, "\nunlock main ") != want {
			t.Errorf("predict %v: main locks %d times\n%s", predict, n, text)
		}
		event := 1 + strings.Count(text[:strings.Index(text, "main.go:13")], "\n") - strings.Count(text[:strings.Index(text, "\ngo ")+1], "\n")
		if got := s.Trace.Moments(map[int]bool{event: true})[event].String(); got != "after lock of mu at main.go:2" {
			t.Errorf("predict %v: the third write is %s\n%s", predict, got, text)
		}
	}
}
