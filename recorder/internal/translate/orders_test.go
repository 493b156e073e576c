package translate

import (
	"fmt"
	"strings"
	"testing"

	"gorace.local/recorder/internal/hooklog"
	"gorace.local/recorder/internal/hooklog/testdata/hooklogtest"
)

// Who acquires comes after what was released there, once; what nobody acquires has no record.
func TestReleaseAndAcquire(t *testing.T) {
	p := newProgram(t, Options{})
	p.names[0x1000] = "wg"
	g := p.main.Go(2, p.at(1))
	g.Do(hooklog.ReleaseMerge, 0x1000, p.at(2))
	g.Do(hooklog.ReleaseMerge, 0x1000, p.at(3))
	g.Do(hooklog.Release, 0x1100, p.at(4))
	p.main.Do(hooklog.ReleaseMerge, 0x1000, p.at(5))
	p.main.Do(hooklog.Acquire, 0x1000, p.at(6))
	p.main.Do(hooklog.Acquire, 0x1000, p.at(7))
	p.want(`
gotrace 2
goroutine g1
chan wg_order 0
go main g1 main.go:1
close g1 wg_order main.go:3
recvclosed main wg_order main.go:6
`)
}

// A Release takes the place of those before, a ReleaseMerge stands beside them, a ReleaseAcquire does both.
func TestKindsOfReleases(t *testing.T) {
	p := newProgram(t, Options{})
	p.names[0x1000] = "o"
	g, h := p.main.Go(2, p.at(1)), p.main.Go(3, p.at(1))
	g.Do(hooklog.ReleaseMerge, 0x1000, p.at(2))
	h.Do(hooklog.ReleaseMerge, 0x1000, p.at(3))
	p.main.Do(hooklog.Acquire, 0x1000, p.at(4))
	g.Do(hooklog.Release, 0x1000, p.at(5))
	p.main.Do(hooklog.Acquire, 0x1000, p.at(6))
	h.Do(hooklog.ReleaseAcquire, 0x1000, p.at(7))
	p.main.Do(hooklog.Acquire, 0x1000, p.at(8))
	p.want(`
gotrace 2
goroutine g1
goroutine g2
chan o_order 0
chan o_order_2 0
chan o_order_3 0
chan o_order_4 0
go main g1 main.go:1
go main g2 main.go:1
close g1 o_order main.go:2
close g2 o_order_2 main.go:3
recvclosed main o_order main.go:4
recvclosed main o_order_2 main.go:4
close g1 o_order_3 main.go:5
recvclosed main o_order_3 main.go:6
close g2 o_order_4 main.go:7
recvclosed g2 o_order_3 main.go:7
recvclosed main o_order_4 main.go:8
`)
}

// A release of who has acquired all others stands for these.
func TestOneReleaseForAll(t *testing.T) {
	p := newProgram(t, Options{})
	p.names[0x1000] = "o"
	g, h := p.main.Go(2, p.at(1)), p.main.Go(3, p.at(1))
	g.Do(hooklog.ReleaseMerge, 0x1000, p.at(2))
	h.Do(hooklog.Acquire, 0x1000, p.at(3))
	h.Do(hooklog.ReleaseMerge, 0x1000, p.at(4))
	p.main.Do(hooklog.Acquire, 0x1000, p.at(5))
	p.want(`
gotrace 2
goroutine g1
goroutine g2
chan o_order 0
chan o_order_2 0
go main g1 main.go:1
go main g2 main.go:1
close g1 o_order main.go:2
recvclosed g2 o_order main.go:3
close g2 o_order_2 main.go:4
recvclosed main o_order_2 main.go:5
`)
}

// A group that is used again and again is looked at from where its waiter was last.
func TestOneWaiter(t *testing.T) {
	p := newProgram(t, Options{})
	const rounds, each = 200, 20
	for i := uint32(0); i < rounds; i++ {
		for k := uint32(0); k < each; k++ {
			g := p.main.Go(2+i*each+k, p.at(1))
			g.Do(hooklog.ReleaseMerge, 0x1000, p.at(2))
			g.End()
		}
		p.main.Do(hooklog.Acquire, 0x1000, p.at(3))
	}
	text := p.texts(true)[0]
	if n := strings.Count(text, "recvclosed main "); n < rounds*each || strings.Contains(text, " -\n") && strings.Contains(text, "go main g4001") {
		t.Errorf("%d orders of %d", n, rounds*each)
	}
	if o := &p.f.orders.library.all[0]; o.cost > rounds*each {
		t.Errorf("%d releases were looked at", o.cost)
	}
}

// However many goroutines release and acquire at one address, there are a few records for each: a goroutine that stands for the
// address acquires what is released there. It orders no more than they do.
func TestManyReleasesAndAcquires(t *testing.T) {
	p := newProgram(t, Options{})
	const n = 900
	var all []*hooklogtest.Goroutine
	for i := uint32(0); i < n; i++ {
		all = append(all, p.main.Go(2+i, p.at(1)))
	}
	for round := 0; round < 3; round++ {
		for _, g := range all {
			g.Do(hooklog.ReleaseMerge, 0x1000, p.at(2))
		}
		for _, g := range all[:n/2] {
			g.Do(hooklog.Acquire, 0x1000, p.at(3))
		}
	}
	text := p.texts(true)[0]
	if events := strings.Count(text, " main.go:"); events > 15*n {
		t.Errorf("%d events of %d steps", events, 3*n+3*n/2)
	}
	merger := fmt.Sprintf("g%d", n+1)
	if !strings.Contains(text, "\ngo main "+merger+" -\ngo main g1 main.go:1\n") {
		t.Errorf("%s isn't started before all others", merger)
	}
	for _, line := range strings.Split(text, "\n") {
		words := strings.Fields(line)
		if len(words) > 1 && words[1] == "g800" && words[0] == "recvclosed" {
			t.Errorf("who never acquires does: %s", line)
		}
	}
}

// A load comes after the last store, whether that was told as a store or as a change; a failed change is a load.
func TestAtomics(t *testing.T) {
	p := newProgram(t, Options{})
	p.names[0x1000] = "flag"
	g := p.main.Go(2, p.at(1))
	on := func(g *hooklogtest.Goroutine, op hooklog.Op, line int) {
		g.Step(hooklogtest.Step{Op: op, Addr: 0x1000, Aux: 4, Site: p.at(line)})
	}
	on(p.main, hooklog.AtomicStore, 2)
	on(p.main, hooklog.AtomicStore, 3)
	on(g, hooklog.AtomicLoad, 12)
	on(g, hooklog.AtomicLoad, 13)
	on(g, hooklog.AtomicRMW, 14)
	on(p.main, hooklog.AtomicFail, 4)
	p.want(`
gotrace 2
goroutine g1
chan flag_order 0
chan flag_order_2 0
go main g1 main.go:1
close main flag_order main.go:3
recvclosed g1 flag_order main.go:12
close g1 flag_order_2 main.go:14
recvclosed main flag_order_2 main.go:4
`)
}

// Where plain accesses come to the memory of atomic operations, they are accesses too: half a word's are about what begins there.
func TestAtomicsAndPlainAccesses(t *testing.T) {
	p := newProgram(t, Options{})
	p.names[0x1004] = "high"
	g := p.main.Go(2, p.at(1))
	g.Step(hooklogtest.Step{Op: hooklog.AtomicStore, Addr: 0x1004, Aux: 4, Site: p.at(12)})
	p.main.Access(hooklog.Read, 0x1000, 0x10, 0, 1, p.main.Moment(p.at(2)))
	p.main.Access(hooklog.Read, 0x1000, 0x01, 0, 1, p.main.Moment(p.at(3)))
	p.want(`
gotrace 2
goroutine g1
var high_atomic_g1
go main g1 main.go:1
write g1 high_atomic_g1 0 main.go:12
read main high_atomic_g1 0 main.go:2
`)
}

// Atomic operations and locks within locks, wait groups and onces don't count, those of others do.
func TestWithinLocks(t *testing.T) {
	for _, c := range []struct {
		library []string
		counts  bool
	}{
		{[]string{"sync/atomic.AddInt32", "sync.(*Mutex).Lock"}, false},
		{[]string{"sync/atomic.AddInt32", "internal/sync.(*Mutex).Unlock", "sync.(*Mutex).Unlock"}, false},
		{[]string{"sync/atomic.AddInt32", "sync.(*RWMutex).RLock"}, false},
		{[]string{"sync/atomic.(*Uint64).Add", "sync.(*WaitGroup).Add"}, false},
		{[]string{"sync/atomic.StoreUint32", "sync.(*Once).doSlow", "sync.(*Once).Do"}, false},
		{[]string{"sync/atomic.LoadPointer", "sync.(*Map).Load"}, true},
		{[]string{"sync/atomic.AddInt32"}, true},
	} {
		p := newProgram(t, Options{})
		g := p.main.Go(2, p.at(1))
		site := p.at(2, c.library...)
		p.main.Step(hooklogtest.Step{Op: hooklog.AtomicRMW, Addr: 0x1000, Aux: 4, Site: site})
		g.Step(hooklogtest.Step{Op: hooklog.AtomicRMW, Addr: 0x1000, Aux: 4, Site: site})
		text := p.texts(true)[0]
		if counts := strings.Contains(text, "recvclosed"); counts != c.counts {
			t.Errorf("%v: %s", c.library, text)
		}
	}
}

// Who is woken on a Cond comes after who wakes it.
func TestEdge(t *testing.T) {
	p := newProgram(t, Options{})
	p.names[0x1000] = "cond"
	p.main.Go(2, p.at(1))
	p.main.Step(hooklogtest.Step{Op: hooklog.Edge, Addr: 0x1000, Site: p.at(2), Other: 2, Waits: p.at(12)})
	p.want(`
gotrace 2
goroutine g1
chan cond_order 0
go main g1 main.go:1
close main cond_order main.go:2
recvclosed g1 cond_order main.go:12
`)
}

// What finalizers do comes after all that others did before.
func TestFinalizers(t *testing.T) {
	p := newProgram(t, Options{})
	p.names[0x2000] = "n"
	g := p.main.Go(2, p.at(1))
	finalizers := p.main.Go(3, p.at(2, "runtime.createfing", "runtime.SetFinalizer"))
	g.Write(0x2000, p.at(3))
	g.Do(hooklog.Exit, 0, 0)
	finalizers.Do(hooklog.Finalizer, 0, 0)
	finalizers.Write(0x2000, p.at(4))
	p.main.Write(0x2008, p.at(5))
	p.main.Go(4, p.at(6)).Write(0x2008, p.at(7))
	p.want(`
gotrace 2
goroutine g1
goroutine g2
var n
chan _order 0
chan _order_2 0
var memory
goroutine g3
go main g1 main.go:1
go main g2 main.go:2
write g1 n 1 main.go:3
close main _order -
recvclosed g2 _order -
close g1 _order_2 -
recvclosed g2 _order_2 -
write main memory 1 main.go:5
write g2 n 2 main.go:4
go main g3 main.go:6
write g3 memory 2 main.go:7
`)
}

// Orders that nobody promises don't count, and memory that only such functions use isn't told.
func TestPrivateOrders(t *testing.T) {
	private := [][]string{
		{"sync.(*Pool).Put", "fmt.(*pp).free", "fmt.Fprintln", "fmt.Println"},
		{"sync.(*Mutex).Lock", "math/rand.(*lockedSource).Int63"},
		{"sync.(*Mutex).Lock", "internal/poll.(*fdMutex).rwlock", "internal/poll.(*FD).writeLock", "internal/poll.(*FD).Write", "os.(*File).Write"},
		{"sync.(*RWMutex).RLock", "syscall.Getenv", "os.Getenv"},
		{"sync/atomic.(*Value).Load", "internal/testlog.Logger"},
		{"sync.(*Mutex).Lock", "testing.(*testContext).waitParallel", "testing.(*T).Parallel"},
		{"math/rand.(*rngSource).Uint64", "math/rand.(*lockedSource).Int63", "math/rand.(*Rand).Int63", "math/rand.Int63"},
	}
	public := [][]string{
		{"sync.(*Mutex).Lock", "log.(*Logger).Output"},
		{"sync.(*Mutex).Lock"},
		{"sync.(*Mutex).Lock", "internal/poll.(*FD).Close", "os.(*File).Close"},
		{"sync.(*Mutex).Lock", "syscall.Socket"},
		{"syscall.Write", "internal/poll.ignoringEINTRIO", "internal/poll.(*FD).Write", "os.(*File).Write"},
		{"sync.(*Mutex).Lock", "testing.(*common).log", "testing.(*T).Log"},
		{"math/rand.(*rngSource).Uint64", "math/rand.(*Rand).Int63"},
	}
	for i, library := range append(append([][]string{}, private...), public...) {
		p := newProgram(t, Options{})
		g := p.main.Go(2, p.at(1))
		p.main.Do(hooklog.ReleaseMerge, 0x1000, p.at(2, library...))
		g.Do(hooklog.Acquire, 0x1000, p.at(3, library...))
		p.main.Write(0x2000, p.at(4, library...))
		g.Write(0x2000, p.at(5, library...))
		text := p.texts(true)[0]
		if is := !strings.Contains(text, "recvclosed") && !strings.Contains(text, "write"); is != (i < len(private)) {
			t.Errorf("%v:\n%s", library, text)
		}
	}
}

// Memory that the program itself uses besides is told, also where such functions write it; but not package fmt's own, which a
// Writer reads.
func TestPrivateMemoryOfTheProgram(t *testing.T) {
	p := newProgram(t, Options{})
	p.names[0x2000], p.names[0x2008], p.names[0x2010] = "n", "appended", "buffer"
	g := p.main.Go(2, p.at(1))
	p.main.Read(0x2000, p.at(2, "fmt.(*pp).printValue", "fmt.Println"))
	p.main.Write(0x2008, p.at(3, "fmt.Append"))
	p.main.Write(0x2010, p.at(4, "fmt.(*buffer).writeString", "fmt.Fprint"))
	g.Write(0x2000, p.at(5))
	g.Read(0x2008, p.at(6))
	writer := p.at(7)
	p.w.Site(500, p.r.Stack(writer)[0], p.r.Stack(p.at(8, "fmt.Fprint"))[0])
	g.Read(0x2010, 500)
	p.want(`
gotrace 2
goroutine g1
var n
var appended
go main g1 main.go:1
read main n 0 main.go:2
write main appended 1 main.go:3
write g1 n 1 main.go:5
read g1 appended 1 main.go:6
`)
}

// Memory that the package of private functions sets up is theirs; what another part of the library writes is the program's.
func TestWhoseMemory(t *testing.T) {
	p := newProgram(t, Options{})
	p.names[0x2000], p.names[0x2008] = "environment", "value"
	p.main.Write(0x2000, p.at(0, "syscall.init", "runtime.doInit"))
	p.main.Write(0x2010, p.at(0, "net.newFD"))
	g := p.main.Go(2, p.at(1))
	p.main.Write(0x2000, p.at(2, "syscall.Setenv", "os.Setenv"))
	g.Read(0x2000, p.at(3, "syscall.copyenv", "sync.(*Once).Do", "syscall.Getenv"))
	closes := []string{"internal/poll.(*FD).destroy", "internal/poll.(*FD).writeUnlock", "internal/poll.(*FD).Write"}
	p.main.Write(0x2010, p.at(6, closes...))
	g.Read(0x2010, p.at(7, "internal/poll.(*FD).Read"))
	p.main.Write(0x2018, p.at(8, "runtime.mapassign", "reflect.addReflectOff", "reflect.resolveReflectName"))
	g.Read(0x2018, p.at(9, "runtime.mapaccess1", "reflect.addReflectOff", "reflect.resolveReflectName"))
	p.main.Write(0x2008, p.at(4, "reflect.Value.SetInt", "encoding/json.Unmarshal"))
	g.Read(0x2008, p.at(5, "fmt.Println"))
	p.want(`
gotrace 2
goroutine g1
var value
go main g1 main.go:1
write main value 1 main.go:4
read g1 value 1 main.go:5
`)
}

// What a Writer hands to another goroutine is read before package fmt passes that memory on.
func TestMemoryThatIsPassedOn(t *testing.T) {
	p := newProgram(t, Options{})
	p.names[0x2000] = "line"
	printing := func(line int) uint32 { return p.at(line, "fmt.(*buffer).writeString", "fmt.Fprint") }
	reader, other := p.main.Go(2, p.at(1)), p.main.Go(3, p.at(2))
	p.main.Write(0x2000, printing(3))
	p.main.Do(hooklog.AtomicStore, 0x1000, p.at(4))
	reader.Do(hooklog.AtomicLoad, 0x1000, p.at(5))
	reader.Read(0x2000, p.at(6))
	reader.Do(hooklog.Exit, 0, 0)
	other.Write(0x2000, printing(7))
	other.Do(hooklog.Exit, 0, 0)
	p.want(`
gotrace 2
goroutine g1
var line
chan atomic_order 0
go main g1 main.go:1
write main line 1 main.go:3
close main atomic_order main.go:4
recvclosed g1 atomic_order main.go:5
read g1 line 1 main.go:6
exit g1 -
`)
}
