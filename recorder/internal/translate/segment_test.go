package translate

import (
	"strings"
	"testing"

	"gorace.local/recorder/internal/hooklog"
	"gorace.local/recorder/internal/hooklog/testdata/hooklogtest"
	"gorace.local/recorder/internal/symbols"
	"gorace.local/recorder/internal/trace"
)

// A lock and a race of two goroutines: what each does is after its go.
func TestAProgram(t *testing.T) {
	p := newProgram(t, Options{})
	p.names[0x1000], p.names[0x2000], p.names[0x3000] = "mu", "n", "m"
	g := p.main.Go(7, p.at(1))
	p.main.Do(hooklog.Lock, 0x1000, p.at(2))
	p.main.Write(0x2000, p.at(3))
	p.main.Do(hooklog.Unlock, 0x1000, p.at(4))
	p.main.Write(0x3000, p.at(5))
	g.Do(hooklog.Lock, 0x1000, p.at(12))
	g.Read(0x2000, p.at(13))
	g.Do(hooklog.Unlock, 0x1000, p.at(14))
	g.Write(0x3000, p.at(15))
	g.Do(hooklog.Exit, 0, 0)
	p.want(`
gotrace 2
goroutine g1
mutex mu
var n
var m
go main g1 main.go:1
lock main mu main.go:2
write main n 1 main.go:3
unlock main mu main.go:4
write main m 1 main.go:5
lock g1 mu main.go:12
read g1 n 1 main.go:13
unlock g1 mu main.go:14
write g1 m 2 main.go:15
exit g1 -
`)
}

// Accesses that another goroutine tells stand where their own did them.
func TestToldLate(t *testing.T) {
	p := newProgram(t, Options{})
	p.names[0x2000], p.names[0x1000] = "n", "mu"
	g := p.main.Go(2, p.at(1))
	early := p.main.Moment(p.at(2))
	p.main.Do(hooklog.Lock, 0x1000, p.at(3))
	p.main.Do(hooklog.Unlock, 0x1000, p.at(4))
	g.Do(hooklog.Lock, 0x1000, p.at(5))
	g.Access(hooklog.Write, 0x2000, 0xff, 0, 1, early)
	g.Write(0x2000, p.at(6))
	p.want(`
gotrace 2
goroutine g1
var n
mutex mu
go main g1 main.go:1
write main n 1 main.go:2
lock main mu main.go:3
unlock main mu main.go:4
lock g1 mu main.go:5
write g1 n 2 main.go:6
`)
}

// A word has a variable for each byte at which an access begins; an access of more bytes is about each of them.
func TestPartsOfAWord(t *testing.T) {
	p := newProgram(t, Options{})
	p.names[0x2000], p.names[0x2004], p.names[0x2008] = "a", "b", "c"
	g := p.main.Go(2, p.at(1))
	p.main.Access(hooklog.Write, 0x2000, 0x01, 0, 1, p.main.Moment(p.at(2)))
	g.Access(hooklog.Write, 0x2000, 0x10, 0, 1, g.Moment(p.at(3)))
	p.main.Access(hooklog.Read, 0x2000, 0xff, 0, 2, p.main.Moment(p.at(4)))
	g.Access(hooklog.Write, 0x2008, 0x01, 0, 1, g.Moment(p.at(5)))
	p.want(`
gotrace 2
goroutine g1
var b
var c
go main g1 main.go:1
read main b 0 main.go:4
read main c 0 main.go:4
write g1 b 1 main.go:3
write g1 c 1 main.go:5
`)
}

// The bytes of an access needn't be neighbours.
func TestBytesApart(t *testing.T) {
	p := newProgram(t, Options{})
	for i := uint64(0); i < 4; i++ {
		p.names[0x2000+i] = "b" + string(rune('0'+i))
	}
	g := p.main.Go(2, p.at(1))
	p.main.Access(hooklog.Read, 0x2000, 0x55, 0, 1, p.main.Moment(p.at(2)))
	p.main.Access(hooklog.Read, 0x2000, 0xaa, 0, 1, p.main.Moment(p.at(3)))
	g.Access(hooklog.Write, 0x2000, 0x04, 0, 1, g.Moment(p.at(4)))
	g.Access(hooklog.Write, 0x2000, 0x08, 0, 1, g.Moment(p.at(5)))
	p.want(`
gotrace 2
goroutine g1
var b2
var b3
go main g1 main.go:1
read main b2 0 main.go:2
read main b3 0 main.go:3
write g1 b2 1 main.go:4
write g1 b3 1 main.go:5
`)
}

// Memory that is used anew is another variable.
func TestGenerations(t *testing.T) {
	p := newProgram(t, Options{})
	p.names[0x2000] = "n"
	g := p.main.Go(2, p.at(1))
	p.main.Access(hooklog.Write, 0x2000, 1, 0, 1, p.main.Moment(p.at(2)))
	g.Access(hooklog.Write, 0x2000, 1, 1, 1, g.Moment(p.at(3)))
	g.Access(hooklog.Write, 0x2000, 1, 2, 1, g.Moment(p.at(4)))
	p.main.Access(hooklog.Read, 0x2000, 1, 2, 1, p.main.Moment(p.at(5)))
	p.want(`
gotrace 2
goroutine g1
var n
go main g1 main.go:1
read main n 0 main.go:5
write g1 n 1 main.go:4
`)
}

// Words of one value are one variable.
func TestAValueOfTwoWords(t *testing.T) {
	p := newProgram(t, Options{})
	p.names[0x2000], p.names[0x2008], p.begins[0x2008] = "text", "text", 0x2000
	g := p.main.Go(2, p.at(1))
	p.main.Access(hooklog.Write, 0x2000, 0xff, 0, 2, p.main.Moment(p.at(2)))
	g.Access(hooklog.Read, 0x2000, 0xff, 0, 2, g.Moment(p.at(3)))
	p.want(`
gotrace 2
goroutine g1
var text
go main g1 main.go:1
write main text 1 main.go:2
read g1 text 1 main.go:3
`)
}

// The place of an access in the library is that of the call outside it, and the stack has all calls.
func TestPlaces(t *testing.T) {
	p := newProgram(t, Options{})
	p.names[0x2000] = "n"
	site := p.at(2, "runtime.recWord", "sort.Sort", "bytes.Run")
	g := p.main.Go(2, p.at(1))
	p.main.Write(0x2000, site)
	g.Write(0x2000, p.at(0, "bytes.Run"))
	g.Write(0x2000, 0)
	p.want(`
gotrace 2
goroutine g1
var n
go main g1 main.go:1
write main n 1 main.go:2
write g1 n 2 lib/lib.go:100
write g1 n 3 -
`)
	want := []Call{{"sort.Sort", "lib/lib.go:101"}, {"bytes.Run", "lib/lib.go:102"}, {"main.f", "/home/p/main.go:2"}}
	got := p.f.Stack(site)
	for i := range want {
		if len(got) != len(want) || got[i] != want[i] {
			t.Fatalf("the stack is %v", got)
		}
	}
}

// cut has all that was written so far be a segment.
func (p *program) cut() string {
	p.t.Helper()
	for {
		n, err := p.r.Read(p.f.Translator, 1<<20)
		if err != nil {
			p.t.Fatal(err)
		}
		if n == 0 && p.r.Whole() {
			return p.text(p.f.Segment(false))
		}
	}
}

// A segment begins with what stood: what is held is found by its unlock, what waits in a buffer, what is closed, which once
// was done and which was under way.
func TestCut(t *testing.T) {
	p := newProgram(t, Options{})
	for addr, name := range map[uint64]string{0x1000: "mu", 0x1100: "rw", 0x1200: "c", 0x1300: "d", 0x1400: "o", 0x1500: "q", 0x2000: "n"} {
		p.names[addr] = name
	}
	m := p.main
	g := m.Go(2, p.at(1))
	ended := m.Go(3, p.at(2))
	ended.Do(hooklog.Exit, 0, 0)
	m.Do(hooklog.Lock, 0x1000, p.at(3))
	g.Do(hooklog.RLock, 0x1100, p.at(4))
	m.Do(hooklog.RLock, 0x1100, p.at(4))
	buffer := func(g *hooklogtest.Goroutine, op hooklog.Op, addr, before uint64, line int, element uint64) {
		g.Step(hooklogtest.Step{Op: op, Addr: addr, Site: p.at(line), Value: 3<<32 | before, Element: element, Has: addr == 0x1200})
	}
	buffer(m, hooklog.Send, 0x1200, 0, 5, 70)
	buffer(m, hooklog.Send, 0x1200, 1, 5, 71)
	buffer(m, hooklog.Send, 0x1200, 2, 5, 72)
	buffer(g, hooklog.Receive, 0x1200, 3, 6, 70)
	buffer(m, hooklog.Close, 0x1300, 0, 7, 0)
	m.Do(hooklog.OnceBegin, 0x1400, p.at(8))
	m.Do(hooklog.OnceEnd, 0x1400, p.at(8))
	g.Do(hooklog.OnceBegin, 0x1500, p.at(9))
	m.Write(0x2000, p.at(10))
	p.cut()

	buffer(m, hooklog.Send, 0x1200, 2, 21, 73)
	buffer(g, hooklog.Receive, 0x1200, 3, 22, 71)
	buffer(g, hooklog.Receive, 0x1200, 2, 22, 72)
	buffer(g, hooklog.ReceiveClosed, 0x1300, 0, 23, 0)
	g.Do(hooklog.OnceDone, 0x1400, p.at(24))
	g.Do(hooklog.OnceEnd, 0x1500, p.at(25))
	m.Do(hooklog.OnceDone, 0x1500, p.at(26))
	g.Do(hooklog.Unlock, 0x1000, p.at(27))
	g.Do(hooklog.RUnlock, 0x1100, p.at(28))
	m.Do(hooklog.RUnlock, 0x1100, p.at(28))
	m.Do(hooklog.WLock, 0x1100, p.at(29))
	g.Do(hooklog.Lock, 0x1000, p.at(30))
	m.Do(hooklog.WUnlock, 0x1100, p.at(31))
	m.Do(hooklog.Exit, 0, 0)
	p.want(`
gotrace 2
chan c 3
chan d 3
once o
mutex mu
rwmutex rw
goroutine g1
once q
send main c 71 main.go:21
send main c 72 main.go:21
close main d main.go:23
oncebegin main o main.go:24
onceend main o main.go:24
lock main mu main.go:27
rlock main rw main.go:28
rlock main rw main.go:28
go main g1 main.go:1
oncebegin g1 q main.go:25
send main c 73 main.go:21
recv g1 c 71 main.go:22
recv g1 c 72 main.go:22
recvclosed g1 d main.go:23
oncedone g1 o main.go:24
onceend g1 q main.go:25
oncedone main q main.go:26
unlock g1 mu main.go:27
runlock g1 rw main.go:28
runlock main rw main.go:28
lock main rw main.go:29
lock g1 mu main.go:30
unlock main rw main.go:31
`)
}

// Words of the heap are variables of their own, since each has generations of its own, unless all their accesses are the same.
func TestAValueOnTheHeap(t *testing.T) {
	p := newProgram(t, Options{})
	const at = 0xc000010000
	p.names[at], p.names[at+8], p.begins[at+8] = "text", "text", at
	g := p.main.Go(2, p.at(1))
	p.names[at+16], p.names[at+24], p.begins[at+24] = "bytes", "bytes", at+16
	p.main.Access(hooklog.Write, at, 0xff, 0, 4, p.main.Moment(p.at(2)))
	g.Access(hooklog.Read, at, 0xff, 0, 1, g.Moment(p.at(3)))
	g.Access(hooklog.Read, at+8, 0xff, 0, 1, g.Moment(p.at(4)))
	g.Access(hooklog.Read, at+16, 0xff, 0, 2, g.Moment(p.at(5)))
	p.want(`
gotrace 2
goroutine g1
var text
var text_2
var bytes
go main g1 main.go:1
write main text 1 main.go:2
write main text_2 1 main.go:2
write main bytes 1 main.go:2
read g1 text 1 main.go:3
read g1 text_2 1 main.go:4
read g1 bytes 1 main.go:5
`)
}

// With All also what can't be in a race is told, but not what is only used atomically, or in another segment.
func TestAll(t *testing.T) {
	p := newProgram(t, Options{Trace: trace.Options{All: true}})
	p.names[0x2000] = "n"
	g := p.main.Go(2, p.at(1))
	p.main.Read(0x2000, p.at(2))
	g.Step(hooklogtest.Step{Op: hooklog.AtomicRMW, Addr: 0x2010, Aux: 8, Site: p.at(3)})
	p.main.Write(0x2008, p.at(4))
	want := "gotrace 2\ngoroutine g1\nvar n\ngo main g1 main.go:1\nread main n 0 main.go:2\n"
	if got := p.cut(); got != want {
		t.Errorf("the trace is\n%s", got)
	}
}

// Words beside one another that all accesses have in common are one variable.
func TestARow(t *testing.T) {
	p := newProgram(t, Options{})
	p.names[0x2000], p.names[0x2010], p.names[0x2018] = "row", "tail", "last"
	g := p.main.Go(2, p.at(1))
	p.main.Access(hooklog.Write, 0x2000, 0xff, 0, 4, p.main.Moment(p.at(2)))
	g.Access(hooklog.Read, 0x2000, 0xff, 0, 3, g.Moment(p.at(3)))
	g.Access(hooklog.Read, 0x2010, 0xff, 0, 2, g.Moment(p.at(4)))
	p.want(`
gotrace 2
goroutine g1
var row
var tail
var last
go main g1 main.go:1
write main row 1 main.go:2
write main tail 1 main.go:2
write main last 1 main.go:2
read g1 row 1 main.go:3
read g1 tail 1 main.go:3
read g1 tail 1 main.go:4
read g1 last 1 main.go:4
`)
}

// A segment ends where its trace has no room for more; the next one begins there. What is in neither is lost by no cut.
func TestALimitOfTraces(t *testing.T) {
	p := newProgram(t, Options{Trace: trace.Options{Goroutines: 3}})
	p.names[0x1000], p.names[0x2000] = "mu", "n"
	for i := uint32(2); i < 7; i++ {
		g := p.main.Go(i, p.at(1))
		g.Do(hooklog.Lock, 0x1000, p.at(2))
		g.Write(0x2000, p.at(int(i)))
		g.Do(hooklog.Unlock, 0x1000, p.at(3))
	}
	events, ends := "", ""
	for last := false; !last; {
		if _, err := p.r.Read(p.f.Translator, 1<<20); err != nil {
			t.Fatal(err)
		}
		s := p.f.Segment(true)
		if last = s.Last; s.Trace.Cut() != "" {
			t.Errorf("segment %d is cut off: %s", s.Number, s.Trace.Cut())
		}
		for _, line := range strings.Split(p.text(s), "\n") {
			if word, rest, _ := strings.Cut(line, " "); word == "write" {
				events += rest + "\n"
			}
		}
		ends += s.End + ";"
	}
	want := `g1 n 1 main.go:2
g2 n 2 main.go:3
g1 n 1 main.go:4
g2 n 2 main.go:5
`
	if events != want || strings.Count(ends, ";") != 3 || strings.Count(ends, "goroutines at once") != 2 {
		t.Errorf("ends: %s, writes:\n%s", ends, events)
	}
}

// Of a value whose first word isn't kept, the others are one variable.
func TestALaterPartOfAValue(t *testing.T) {
	p := newProgram(t, Options{})
	for addr := uint64(0x2000); addr < 0x2020; addr += 8 {
		p.names[addr], p.begins[addr] = "buf", 0x2000
	}
	g := p.main.Go(2, p.at(1))
	p.main.Access(hooklog.Write, 0x2008, 0xff, 0, 2, p.main.Moment(p.at(2)))
	p.main.Access(hooklog.Write, 0x2000, 0xff, 0, 1, p.main.Moment(p.at(3)))
	g.Access(hooklog.Read, 0x2008, 0xff, 0, 1, g.Moment(p.at(4)))
	g.Access(hooklog.Read, 0x2010, 0xff, 0, 1, g.Moment(p.at(5)))
	p.want(`
gotrace 2
goroutine g1
var buf
go main g1 main.go:1
write main buf 1 main.go:2
read g1 buf 1 main.go:4
read g1 buf 1 main.go:5
`)
}

// What the compiler makes for a defer statement tells the place, and is on a stack that has no other call of the program.
func TestWrappers(t *testing.T) {
	p := newProgram(t, Options{})
	done := symbols.Frame{Function: "sync.(*WaitGroup).Done", File: root + "/src/sync/waitgroup.go", Line: 108}
	wrapper := symbols.Frame{Function: "main.f.func1", File: "/home/p/main.go", Line: 9, Wrapper: true}
	p.frames[1], p.frames[2] = []symbols.Frame{done}, []symbols.Frame{wrapper}
	p.frames[3] = []symbols.Frame{{Function: "main.f", File: "/home/p/main.go", Line: 12}}
	p.w.Site(700, 1, 2)
	p.w.Site(701, 1, 2, 3)
	if n := p.f.placeAt(700); p.f.table[n].Place != "main.go:9" {
		t.Errorf("the place is %s", p.f.table[n].Place)
	}
	if got := p.f.Stack(700); len(got) != 2 || got[1].Function != "main.f.func1" {
		t.Errorf("the stack is %v", got)
	}
	if got := p.f.Stack(701); len(got) != 2 || got[1].Function != "main.f" {
		t.Errorf("the other stack is %v", got)
	}
}
