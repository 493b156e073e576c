package translate

import (
	"reflect"
	"strings"
	"testing"

	"gorace.local/recorder/internal/hooklog"
	"gorace.local/recorder/internal/hooklog/testdata/hooklogtest"
	"gorace.local/recorder/internal/trace"
)

// A goroutine of the runtime's begins, before all others do anything, if it does something of the program's; else it isn't told.
func TestGoroutinesOfTheRuntime(t *testing.T) {
	p := newProgram(t, Options{})
	p.names[0x2000] = "n"
	p.w.Goroutine(0).Go(1, p.at(0, "runtime.newproc"))
	timers := p.main.Go(2, p.at(0, "runtime.runOneTimer", "runtime.schedule"))
	idle := p.main.Go(3, p.at(0, "runtime.gcenable"))
	idle.Do(hooklog.Exit, 0, 0)
	p.main.Write(0x2000, p.at(1))
	timers.Write(0x2000, p.at(0, "main.callback"))
	idle.Write(0x2000, p.at(0, "runtime.bgsweep"))
	p.want(`
gotrace 2
goroutine g1
var n
go main g1 -
write main n 1 main.go:1
write g1 n 2 lib/lib.go:100
`)
}

// One that the library starts is started at no place, on behalf of who called it; in a later segment by nobody.
func TestStarts(t *testing.T) {
	p := newProgram(t, Options{})
	p.names[0x1000] = "mu"
	own := p.main.Go(2, p.at(1))
	library := p.main.Go(3, p.at(0, "net/http.(*Server).Serve"))
	use := func() {
		for _, g := range []*hooklogtest.Goroutine{own, library} {
			g.Do(hooklog.Lock, 0x1000, p.at(2))
			g.Do(hooklog.Unlock, 0x1000, p.at(3))
		}
	}
	starts := func(ended bool) map[string][]trace.Start {
		s := p.f.Segment(ended)
		sum, err := s.Trace.Write(&strings.Builder{})
		if err != nil {
			t.Fatal(err)
		}
		return sum.Starts
	}
	use()
	if _, err := p.r.Read(p.f.Translator, 1000); err != nil {
		t.Fatal(err)
	}
	want := map[string][]trace.Start{
		"g1": {{By: "main", Place: "main.go:1", Event: 1, Stack: p.at(1)}},
		"g2": {{By: "main", Event: 2, Stack: p.at(0, "net/http.(*Server).Serve")}},
	}
	if got := starts(false); !reflect.DeepEqual(got, want) {
		t.Errorf("at first %v", got)
	}
	use()
	if _, err := p.r.Read(p.f.Translator, 1000); err != nil {
		t.Fatal(err)
	}
	want = map[string][]trace.Start{
		"g1": {{Place: "main.go:1", Event: 1, Stack: p.at(1)}},
		"g2": {{By: "main", Event: 2}},
	}
	if got := starts(true); !reflect.DeepEqual(got, want) {
		t.Errorf("later %v", got)
	}
}

// A goroutine has the label of who started it, unless it has one of its own.
func TestLabels(t *testing.T) {
	p := newProgram(t, Options{})
	p.names[0x1000] = "mu"
	test := p.main.Go(2, p.at(1))
	test.Label("TestA")
	child := test.Go(3, p.at(2))
	sub := test.Go(4, p.at(3))
	sub.Label("TestA/a_name_of_more_than_sixteen_bytes")
	for round := 0; round < 2; round++ {
		for _, g := range []*hooklogtest.Goroutine{test, child, sub} {
			g.Do(hooklog.Lock, 0x1000, p.at(4))
			g.Do(hooklog.Unlock, 0x1000, p.at(4))
		}
		if _, err := p.r.Read(p.f.Translator, 1000); err != nil {
			t.Fatal(err)
		}
		got := p.f.Segment(false).Labels
		if want := []string{"", "TestA", "TestA", "TestA/a_name_of_more_than_sixteen_bytes"}; !reflect.DeepEqual(got, want) {
			t.Errorf("segment %d: %q", round, got)
		}
	}
}

// Goroutines that have ended are forgotten.
func TestEndedGoroutines(t *testing.T) {
	p := newProgram(t, Options{})
	for round := uint32(0); round < 50; round++ {
		for i := uint32(0); i < 20; i++ {
			p.main.Go(2+round*20+i, p.at(1)).End()
		}
		p.cut()
	}
	if n := len(p.f.who); n > 30 {
		t.Errorf("%d are known", n)
	}
}

// An access that is told in a later segment is done there if its goroutine has done no step since; else it is lost, as is
// one of a goroutine that has ended.
func TestToldInALaterSegment(t *testing.T) {
	p := newProgram(t, Options{})
	for i := uint64(0); i < 4; i++ {
		p.names[0x2000+8*i] = "n" + string(rune('0'+i))
	}
	still, over, ended := p.main.Go(2, p.at(1)), p.main.Go(3, p.at(1)), p.main.Go(4, p.at(1))
	moments := []uint32{still.Moment(p.at(10)), over.Moment(p.at(11)), ended.Moment(p.at(12))}
	over.Do(hooklog.Lock, 0x1000, p.at(13))
	ended.End()
	p.cut()
	p.main.Do(hooklog.Unlock, 0x1000, p.at(2))
	for i, id := range moments {
		p.main.MomentOf(uint32(i)+2, id, p.at(10+i), 3)
		p.main.Access(hooklog.Write, 0x2000+8*uint64(i), 0xff, 0, 1, id)
		p.main.Write(0x2000+8*uint64(i), p.at(20+i))
	}
	p.want(`
gotrace 2
goroutine g1
var n0
go main g1 main.go:1
write g1 n0 1 main.go:10
write main n0 2 main.go:20
`)
	if _, ok := p.f.actors.byID.get(4); ok {
		t.Error("who has ended lives again")
	}
}

// What a goroutine accessed before a cut it may do again after it without a word, as long as it does no step: so the accesses
// count there too.
func TestAccessesGoOn(t *testing.T) {
	p := newProgram(t, Options{})
	p.names[0x2000], p.names[0x2008] = "n", "m"
	g, h := p.main.Go(2, p.at(1)), p.main.Go(3, p.at(1))
	g.Write(0x2000, p.at(10))
	h.Write(0x2008, p.at(11))
	h.Do(hooklog.Lock, 0x1000, p.at(12))
	p.cut()
	p.main.Read(0x2000, p.at(2))
	p.main.Read(0x2008, p.at(3))
	p.want(`
gotrace 2
goroutine g1
var n
go main g1 main.go:1
write g1 n 1 main.go:10
read main n 1 main.go:2
`)
}
