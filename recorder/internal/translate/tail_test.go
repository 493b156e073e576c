package translate

import (
	"strings"
	"testing"

	"gorace.local/recorder/internal/hooklog"
	"gorace.local/recorder/internal/hooklog/testdata/hooklogtest"
	"gorace.local/recorder/internal/trace"
)

// What comes after the last access that may race orders none. Where that is much it is left out; but who is started there is known
// later.
func TestAfterTheLastAccess(t *testing.T) {
	for _, c := range []struct {
		turns int
		o     trace.Options
		locks int
	}{
		{shortRest/2 - 1, trace.Options{}, shortRest/2 + 1},
		{shortRest/2 + 1, trace.Options{}, 2},
		{shortRest/2 + 1, trace.Options{All: true}, shortRest/2 + 3},
		{shortRest/2 + 1, trace.Options{Predict: true}, shortRest/2 + 3},
	} {
		p := newProgramOf(t, 1<<13, Options{Trace: c.o, Records: 1 << 20})
		g := p.main.Go(2, p.at(1))
		other := p.main.Go(3, p.at(1))
		lock := func(g *hooklogtest.Goroutine, addr uint64) {
			g.Do(hooklog.Lock, addr, p.at(2))
			g.Do(hooklog.Unlock, addr, p.at(3))
		}
		p.main.Write(0x2000, p.at(4))
		lock(p.main, 0x1000)
		lock(g, 0x1000)
		g.Write(0x2000, p.at(5))
		for i := 0; i < c.turns; i++ {
			lock([...]*hooklogtest.Goroutine{p.main, other}[i%2], 0x1000)
		}
		late := other.Go(4, p.at(6))
		text := p.cut()
		if n := strings.Count(text, "\nlock "); n != c.locks {
			t.Errorf("%+v: %d locks\n%.300s", c, n, text)
		}
		late.Write(0x2008, p.at(7))
		p.main.Write(0x2008, p.at(8))
		if text = p.texts(true)[0]; !strings.Contains(text, " main.go:6\n") {
			t.Errorf("%+v: later\n%s", c, text)
		}
	}
}

// An atomic operation after the last plain access may race with it.
func TestAtomicAfterTheLastAccess(t *testing.T) {
	p := newProgramOf(t, 1<<13, Options{Records: 1 << 20})
	p.names[0x2000] = "x"
	g := p.main.Go(2, p.at(1))
	p.main.Write(0x2000, p.at(2))
	for i := 0; i <= shortRest; i++ {
		g.Do(hooklog.Lock, 0x1000, p.at(3))
		g.Do(hooklog.Unlock, 0x1000, p.at(3))
	}
	g.Step(hooklogtest.Step{Op: hooklog.AtomicStore, Addr: 0x2000, Aux: 8, Site: p.at(4)})
	p.want(`
gotrace 2
goroutine g1
var x_atomic_g1
go main g1 main.go:1
write main x_atomic_g1 0 main.go:2
write g1 x_atomic_g1 0 main.go:4
`)
}

// Before another goroutine is there that does something, main is in no race; but what it did names a variable.
func TestBeforeTheFirstGo(t *testing.T) {
	p := newProgram(t, Options{})
	p.names[0x2000], p.names[0x2008] = "read", "written"
	p.main.Go(2, p.at(1)) // does nothing
	p.main.Write(0x2000, p.at(2))
	p.main.Write(0x2008, p.at(2))
	p.main.Step(hooklogtest.Step{Op: hooklog.AtomicStore, Addr: 0x2000, Aux: 8, Site: p.at(2)})
	g := p.main.Go(3, p.at(3))
	g.Read(0x2000, p.at(4))
	g.Write(0x2008, p.at(4))
	p.main.Read(0x2008, p.at(5))
	p.want(`
gotrace 2
goroutine g2
var written
go main g2 main.go:3
read main written 0 main.go:5
write g2 written 1 main.go:4
`)
}
