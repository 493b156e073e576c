package translate

import (
	"fmt"
	"math/rand"
	"strconv"
	"strings"
	"testing"

	"gorace.local/recorder/internal/hooklog"
	"gorace.local/recorder/internal/hooklog/testdata/hooklogtest"
)

// world is a program that does at random what it can do.
type world struct {
	*program
	random  *rand.Rand
	alive   []*hooklogtest.Goroutine
	next    uint32
	locks   [4]struct{ held, readers int }
	buffers [3]struct {
		values []uint64
		closed bool
	}
	onces [6]int // 0: not begun; 1: done; else one more than who runs it
	in    map[*hooklogtest.Goroutine][]int
}

func (w *world) someone() *hooklogtest.Goroutine { return w.alive[w.random.Intn(len(w.alive))] }

// act does one thing, if it can be done.
func (w *world) act() {
	g := w.someone()
	switch w.random.Intn(9) {
	case 0:
		w.start(g)
	case 1:
		w.useMutex(g, w.random.Intn(2))
	case 2:
		w.useRWMutex(g, 2+w.random.Intn(2))
	case 3, 4:
		w.useBuffer(g, w.random.Intn(3))
	case 5:
		w.meet(g)
	case 6:
		w.useOnce(g, w.random.Intn(6))
	case 7:
		op := [...]hooklog.Op{hooklog.AtomicLoad, hooklog.AtomicStore, hooklog.AtomicRMW, hooklog.Acquire, hooklog.ReleaseMerge}[w.random.Intn(5)]
		g.Step(hooklogtest.Step{Op: op, Addr: 0x5000 + 8*uint64(w.random.Intn(3)), Aux: 8, Site: w.at(7)})
	case 8:
		op := [...]hooklog.Op{hooklog.Read, hooklog.Write}[w.random.Intn(2)]
		g.Access(op, 0x5000+8*uint64(w.random.Intn(8)), 0xff, 0, 1, g.Moment(w.at(8)))
	}
}

func (w *world) start(g *hooklogtest.Goroutine) {
	if len(w.alive) < 6 {
		w.next++
		w.alive = append(w.alive, g.Go(w.next, w.at(1)))
		return
	}
	if i := w.random.Intn(len(w.alive)); i > 0 && len(w.in[w.alive[i]]) == 0 {
		w.alive[i].End()
		w.alive = append(w.alive[:i], w.alive[i+1:]...)
	}
}

func (w *world) useMutex(g *hooklogtest.Goroutine, i int) {
	l, addr := &w.locks[i], 0x1000+uint64(i)*8
	switch {
	case l.held == 0:
		l.held = 1
		g.Do([...]hooklog.Op{hooklog.Lock, hooklog.TryLock}[w.random.Intn(2)], addr, w.at(2))
	case w.random.Intn(4) == 0:
		g.Do(hooklog.TryFail, addr, w.at(2))
	default:
		l.held = 0
		g.Do(hooklog.Unlock, addr, w.at(2))
	}
}

func (w *world) useRWMutex(g *hooklogtest.Goroutine, i int) {
	l, addr := &w.locks[i], 0x1000+uint64(i)*8
	switch {
	case l.held == 1:
		l.held = 0
		g.Do(hooklog.WUnlock, addr, w.at(3))
	case l.readers > 0 && w.random.Intn(3) > 0:
		l.readers--
		g.Do(hooklog.RUnlock, addr, w.at(3))
	case l.readers > 0 || w.random.Intn(2) == 0:
		l.readers++
		g.Do(hooklog.RLock, addr, w.at(3))
	default:
		l.held = 1
		g.Do(hooklog.WLock, addr, w.at(3))
	}
}

const roomOfBuffers = 2

func (w *world) useBuffer(g *hooklogtest.Goroutine, i int) {
	b := &w.buffers[i]
	s := hooklogtest.Step{Addr: 0x2000 + uint64(i)*8, Site: w.at(4), Value: roomOfBuffers<<32 | uint64(len(b.values)), Has: i == 0}
	switch {
	case len(b.values) > 0 && (b.closed || w.random.Intn(2) == 0):
		s.Op, s.Element = hooklog.Receive, b.values[0]
		b.values = b.values[1:]
	case b.closed:
		s.Op = hooklog.ReceiveClosed
	case w.random.Intn(40) == 0 && i == 2:
		s.Op, b.closed = hooklog.Close, true
	case len(b.values) < roomOfBuffers:
		s.Op, s.Element = hooklog.Send, uint64(w.random.Intn(5))
		b.values = append(b.values, s.Element)
	case w.random.Intn(2) == 0:
		s.Op = hooklog.DefaultSend
	default:
		return
	}
	g.Step(s)
}

func (w *world) meet(g *hooklogtest.Goroutine) {
	if other := w.someone(); other != g {
		g.Step(hooklogtest.Step{Op: hooklog.Meet, Aux: uint8(w.random.Intn(2)), Addr: 0x3000, Site: w.at(5), Other: other.ID(), Waits: w.at(15)})
	}
}

func (w *world) useOnce(g *hooklogtest.Goroutine, i int) {
	addr := 0x4000 + uint64(i)*8
	inner := w.in[g]
	switch {
	case len(inner) > 0 && w.random.Intn(2) == 0:
		i = inner[len(inner)-1]
		w.in[g] = inner[:len(inner)-1]
		w.onces[i] = 1
		g.Do(hooklog.OnceEnd, 0x4000+uint64(i)*8, w.at(6))
		g.Do(hooklog.OnceDone, 0x4000+uint64(i)*8, w.at(6))
	case w.onces[i] == 0:
		w.onces[i] = 2
		w.in[g] = append(inner, i)
		g.Do(hooklog.OnceBegin, addr, w.at(6))
	case w.onces[i] == 1:
		g.Do(hooklog.OnceDone, addr, w.at(6))
	}
}

// However a run is cut into segments, the trace of each is one that could have happened.
func TestSegmentsAreLegal(t *testing.T) {
	const runs = 60
	for seed := int64(0); seed < runs; seed++ {
		p := newProgramOf(t, 1<<10, Options{})
		w := &world{program: p, random: rand.New(rand.NewSource(seed)), alive: []*hooklogtest.Goroutine{p.main}, next: 1,
			in: map[*hooklogtest.Goroutine][]int{}}
		for cuts := 0; cuts < 8; cuts++ {
			for n := w.random.Intn(150); n > 0; n-- {
				w.act()
			}
			if w.random.Intn(3) == 0 { // some chunks are read later
				if _, err := p.r.Read(p.f.Translator, 20); err != nil {
					t.Fatal(err)
				}
			}
			text := p.cut()
			if err := illegal(text); err != nil {
				t.Fatalf("seed %d, segment %d: %v\n%s", seed, cuts, err, text)
			}
		}
		p.r.Close()
		p.w.Close()
	}
}

// judge knows which events may follow one another (docs/MEMORY_MODEL.md), but for values of variables.
type judge struct {
	capacity map[string]int
	buffers  map[string][]string
	closed   map[string]bool
	held     map[string]bool
	readers  map[string]int
	runs     map[string]bool
	begun    map[string]bool
	ended    map[string]bool
	inner    map[string][]string
}

// illegal is the first event of a trace that can't have happened there.
func illegal(text string) error {
	j := &judge{map[string]int{}, map[string][]string{}, map[string]bool{}, map[string]bool{}, map[string]int{}, map[string]bool{"main": true},
		map[string]bool{}, map[string]bool{}, map[string][]string{}}
	for i, line := range strings.Split(strings.TrimSpace(text), "\n") {
		words := strings.Fields(line)
		switch words[0] {
		case "gotrace", "goroutine", "var", "mutex", "rwmutex", "once":
			continue
		case "chan":
			j.capacity[words[1]], _ = strconv.Atoi(words[2])
			continue
		}
		if !j.runs[words[1]] || !j.allows(words) {
			return fmt.Errorf("line %d: %s", i+1, line)
		}
	}
	return nil
}

func (j *judge) allows(w []string) bool {
	g, x := w[1], w[2]
	switch w[0] {
	case "go":
		is := j.runs[x]
		j.runs[x] = true
		return !is
	case "exit":
		j.runs[g] = false
		return len(j.inner[g]) == 0
	case "send":
		j.buffers[x] = append(j.buffers[x], w[3])
		return !j.closed[x] && j.capacity[x] > 0 && len(j.buffers[x]) <= j.capacity[x]
	case "recv":
		b := j.buffers[x]
		if len(b) == 0 {
			return false
		}
		j.buffers[x] = b[1:]
		return b[0] == w[3]
	case "meet":
		return g != x && j.runs[x] && j.capacity[w[3]] == 0 && !j.closed[w[3]]
	case "close":
		is := j.closed[x]
		j.closed[x] = true
		return !is
	case "recvclosed":
		return j.closed[x] && len(j.buffers[x]) == 0
	case "default":
		return j.allowsDefault(x)
	}
	return j.allowsLock(w[0], x) && j.allowsOnce(w[0], g, x)
}

// allowsDefault reports whether no case is ready.
func (j *judge) allowsDefault(cases string) bool {
	for _, c := range strings.Split(cases, ",") {
		direction, x, _ := strings.Cut(c, ":")
		switch {
		case j.closed[x]:
			return false
		case direction == "send" && len(j.buffers[x]) < j.capacity[x], direction == "recv" && len(j.buffers[x]) > 0:
			return false
		}
	}
	return true
}

func (j *judge) allowsLock(word, x string) bool {
	held, readers := j.held[x], j.readers[x]
	switch word {
	case "lock", "trylock":
		j.held[x] = true
		return !held && readers == 0
	case "unlock":
		j.held[x] = false
		return held
	case "rlock", "tryrlock":
		j.readers[x]++
		return !held
	case "runlock":
		j.readers[x]--
		return readers > 0
	}
	return true
}

func (j *judge) allowsOnce(word, g, x string) bool {
	switch word {
	case "oncebegin":
		is := j.begun[x]
		j.begun[x] = true
		j.inner[g] = append(j.inner[g], x)
		return !is
	case "onceend":
		n := len(j.inner[g])
		if n == 0 || j.inner[g][n-1] != x {
			return false
		}
		j.inner[g], j.ended[x] = j.inner[g][:n-1], true
	case "oncedone":
		return j.ended[x]
	}
	return true
}
