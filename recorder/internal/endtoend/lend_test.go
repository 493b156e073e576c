package endtoend

import (
	"fmt"
	"math/rand"
	"os"
	"path/filepath"
	"strings"
	"testing"

	"gorace.local/recorder/internal/trace"
)

// Names of goroutines that have ended are lent to others, where all that the first did comes
// before the second is started. Here programs of a few goroutines are written once with names
// enough, and once with so few that names are lent: what happens before what, by the edges that
// gorace lists of both traces, has to be the same of all accesses.

// A walk makes the records of a random run.
type walk struct {
	*rand.Rand
	records []trace.Record
	alive   []uint32
	started uint32
	objects uint32
	holder  map[uint32]uint32   // of locks: who holds it
	readers map[uint32][]uint32 // of locks
	queued  map[uint32]int      // of channels: values in the buffer
	sent    map[uint32]uint64
	got     map[uint32]uint64
	closed  map[uint32]bool
	done    bool // the once's function has run
	orders  []uint32
	ended   []uint32 // the orders of those that have ended
}

const (
	walkVar, walkMutex, walkRW, walkBuffer, walkMeet, walkOnce, walkSites = 1, 2, 3, 4, 5, 6, 7
	walkCapacity                                                          = 2
	walkAlive                                                             = 4
)

// recording is that of a walk. There is a site for each kind of object.
func (w *walk) recording() *trace.Recording {
	r := &trace.Recording{Records: w.records, Sites: []trace.Site{{Place: "-"}}}
	for _, name := range []string{"x", "mu", "rw", "c", "d", "once", "o"} {
		r.Sites = append(r.Sites, trace.Site{Place: name + ".go:1", Name: name})
	}
	r.Objects = []trace.Object{
		{}, {Kind: trace.Variable, Site: walkVar}, {Kind: trace.Mutex, Site: walkMutex}, {Kind: trace.RWMutex, Site: walkRW},
		{Kind: trace.Channel, Site: walkBuffer, Capacity: walkCapacity}, {Kind: trace.Channel, Site: walkMeet}, {Kind: trace.Once, Site: walkOnce},
	}
	for n := uint32(walkOnce); n < w.objects; n++ {
		r.Objects = append(r.Objects, trace.Object{Kind: trace.Order, Site: walkSites})
	}
	return r
}

// newWalk makes a run of so many steps.
func newWalk(seed int64, steps int) *walk {
	w := &walk{
		Rand: rand.New(rand.NewSource(seed)), alive: []uint32{0}, holder: map[uint32]uint32{}, readers: map[uint32][]uint32{},
		queued: map[uint32]int{}, sent: map[uint32]uint64{}, got: map[uint32]uint64{}, closed: map[uint32]bool{},
	}
	w.objects = walkOnce
	for i := 0; i < steps; i++ {
		w.step()
	}
	return w
}

func (w *walk) add(op trace.Op, g, object uint32, value uint64) {
	site := object
	if site == 0 || site >= walkSites {
		site = walkSites
	}
	w.records = append(w.records, trace.Record{Op: op, Goroutine: g, Object: object, Site: site, Value: value})
}

// step does something that can be done now.
func (w *walk) step() {
	at := w.Intn(len(w.alive))
	g := w.alive[at]
	switch w.Intn(12) {
	case 0, 1:
		if len(w.alive) == walkAlive {
			return
		}
		for _, o := range w.ended { // as a Wait, which may be forgotten
			if w.Intn(5) > 0 {
				w.add(trace.Acquire, g, o, 0)
			}
		}
		w.started++
		w.records = append(w.records, trace.Record{Op: trace.Go, Goroutine: g, Other: w.started, Site: walkSites})
		w.alive = append(w.alive, w.started)
		w.add(trace.Write, w.started, walkVar, 0)
	case 2, 3:
		if g != 0 && !w.holds(g) {
			if w.Intn(3) > 0 {
				w.release(g) // as a Done
				w.ended = append(w.ended, w.objects)
			}
			w.add(trace.Exit, g, 0, 0)
			w.alive = append(w.alive[:at], w.alive[at+1:]...)
		}
	case 4:
		w.add(trace.Read, g, walkVar, 0)
	case 5:
		w.add(trace.Write, g, walkVar, 0)
	case 6:
		w.lock(g, walkMutex)
	case 7:
		if w.Intn(2) == 0 {
			w.lock(g, walkRW)
		} else {
			w.readLock(g)
		}
	case 8:
		w.buffer(g)
	case 9:
		w.meet(g)
	case 10:
		w.once(g)
	case 11:
		w.order(g)
	}
}

func (w *walk) holds(g uint32) bool {
	for lock, holder := range w.holder {
		if holder == g+1 && lock > 0 {
			return true
		}
	}
	return count(w.readers[walkRW], g) > 0
}

func count(list []uint32, g uint32) int {
	n := 0
	for _, h := range list {
		if h == g {
			n++
		}
	}
	return n
}

// lock locks or unlocks; the holder is kept with 1 added, since 0 is none.
func (w *walk) lock(g, lock uint32) {
	switch {
	case w.holder[lock] == g+1:
		w.add(trace.Unlock, g, lock, 0)
		w.holder[lock] = 0
	case w.holder[lock] == 0 && len(w.readers[lock]) == 0:
		w.add(trace.Lock, g, lock, 0)
		w.holder[lock] = g + 1
	}
}

func (w *walk) readLock(g uint32) {
	list := w.readers[walkRW]
	for i, h := range list {
		if h == g {
			w.add(trace.ReadUnlock, g, walkRW, 0)
			w.readers[walkRW] = append(list[:i:i], list[i+1:]...)
			return
		}
	}
	if w.holder[walkRW] == 0 {
		w.add(trace.ReadLock, g, walkRW, 0)
		w.readers[walkRW] = append(list, g)
	}
}

func (w *walk) buffer(g uint32) {
	if w.queued[walkBuffer] == walkCapacity || w.queued[walkBuffer] > 0 && w.Intn(2) == 0 {
		w.got[walkBuffer]++
		w.queued[walkBuffer]--
		w.add(trace.Receive, g, walkBuffer, w.got[walkBuffer])
		return
	}
	w.sent[walkBuffer]++
	w.queued[walkBuffer]++
	w.add(trace.Send, g, walkBuffer, w.sent[walkBuffer])
}

func (w *walk) meet(g uint32) {
	other := w.alive[w.Intn(len(w.alive))]
	switch {
	case w.closed[walkMeet]:
		w.add(trace.ReceiveClosed, g, walkMeet, 0)
	case w.Intn(40) == 0:
		w.closed[walkMeet] = true
		w.add(trace.Close, g, walkMeet, 0)
	case other != g:
		w.sent[walkMeet]++
		w.records = append(w.records, trace.Record{
			Op: trace.Meet, Goroutine: g, Other: other, Object: walkMeet, Site: walkMeet, OtherSite: walkMeet, Value: w.sent[walkMeet],
		})
	}
}

func (w *walk) once(g uint32) {
	if w.done {
		w.add(trace.OnceDone, g, walkOnce, 0)
		return
	}
	w.done = true
	w.add(trace.OnceBegin, g, walkOnce, 0)
	w.add(trace.Write, g, walkVar, 0)
	w.add(trace.OnceEnd, g, walkOnce, 0)
}

func (w *walk) order(g uint32) {
	if len(w.orders) > 0 && w.Intn(3) > 0 {
		w.add(trace.Acquire, g, w.orders[w.Intn(len(w.orders))], 0)
		return
	}
	w.release(g)
}

func (w *walk) release(g uint32) {
	w.objects++
	w.orders = append(w.orders, w.objects)
	w.add(trace.Release, g, w.objects, 0)
}

// write writes the trace of a walk with at most so many names of goroutines.
func (w *walk) write(t *testing.T, path string, names int) *trace.Summary {
	t.Helper()
	f, err := os.Create(path)
	if err != nil {
		t.Fatal(err)
	}
	defer f.Close()
	s, err := trace.New(w.recording(), trace.Options{Version: 1, All: true, Goroutines: names}).Write(f)
	if err != nil {
		t.Fatal(err)
	}
	return s
}

// An order is which accesses happen before which, by their numbers.
type order [][]bool

// orderOf follows the edges of a trace, as gorace lists them: each leads from the begin of a
// goroutine's part in an event to the end of one's part in an event.
func orderOf(text, edges string) (order, error) {
	into := map[string][]string{} // the begins that an end comes after
	for _, line := range strings.Split(edges, "\n") {
		if w := strings.Fields(line); len(w) == 5 && w[0] == "edge" {
			into[w[3]+" "+w[4]] = append(into[w[3]+" "+w[4]], w[1]+" "+w[2])
		} else if len(w) > 0 && w[0] != "edges:" {
			return nil, fmt.Errorf("no edge: %s", line)
		}
	}
	known := map[string]map[string]int{}  // by goroutine: the last begin that it knows of each
	begins := map[string]map[string]int{} // by event and goroutine
	type access struct {
		event     int
		goroutine string
		knows     map[string]int
	}
	var accesses []access
	event := 0
	for _, line := range strings.Split(text, "\n")[1:] {
		words := strings.Fields(line)
		if len(words) < 3 || strings.Contains(" goroutine var chan mutex rwmutex once ", " "+words[0]+" ") {
			continue
		}
		event++
		parts := words[1:2]
		if words[0] == "meet" || words[0] == "go" {
			parts = words[1:3]
		}
		for _, g := range parts {
			if known[g] == nil {
				known[g] = map[string]int{}
			}
			known[g][g] = event
			begins[fmt.Sprint(event, " ", g)] = clone(known[g])
		}
		if words[0] == "read" || words[0] == "write" {
			accesses = append(accesses, access{event, words[1], clone(known[words[1]])})
		}
		for _, g := range parts {
			for _, from := range into[fmt.Sprint(event, " ", g)] {
				for h, n := range begins[from] {
					if n > known[g][h] {
						known[g][h] = n
					}
				}
			}
		}
	}
	o := make(order, len(accesses))
	for i, a := range accesses {
		o[i] = make([]bool, len(accesses))
		for j, b := range accesses[i+1:] {
			// b knows a begin after a, or stands after it in one goroutine
			o[i][i+1+j] = b.knows[a.goroutine] > a.event
		}
	}
	return o, nil
}

func clone(m map[string]int) map[string]int {
	c := map[string]int{}
	for k, v := range m {
		c[k] = v
	}
	return c
}

// compareOrders compares the orders of two traces of one walk.
func compareOrders(t *testing.T, name, text, edges, lentText, lentEdges string) {
	t.Helper()
	all, err := orderOf(text, edges)
	if err != nil {
		t.Errorf("%s: %v", name, err)
		return
	}
	lent, err := orderOf(lentText, lentEdges)
	if err != nil || len(lent) > len(all) {
		t.Errorf("%s: %v, %d accesses of %d", name, err, len(lent), len(all))
		return
	}
	for i := range lent { // which ends earlier where names ran out
		for j := range lent {
			if lent[i][j] != all[i][j] {
				t.Errorf("%s: access %d before %d: %v, but with names lent %v\n%s\nlent\n%s", name, i+1, j+1, all[i][j], lent[i][j], text, lentText)
				return
			}
		}
	}
}

const walks = 100

// lentNames are so few that names are lent in most walks.
const lentNames = 5

// TestLend compares the orders of random runs.
func TestLend(t *testing.T) {
	requireJudge(t)
	dir := t.TempDir()
	traces := map[string]string{}
	lent := 0
	for seed := int64(1); seed <= walks; seed++ {
		w := newWalk(seed, 150)
		for name, names := range map[string]int{"all": 0, "lent": lentNames} {
			run := fmt.Sprintf("%s.%d", name, seed)
			traces[run] = filepath.Join(dir, run)
			if s := w.write(t, traces[run], names); s.Names < s.Goroutines.Kept {
				lent++
			}
		}
	}
	if lent < walks/2 {
		t.Errorf("names were lent in %d runs", lent)
	}
	edges := askAll(t, "edges", traces)
	for seed := 1; seed <= walks; seed++ {
		all, few := fmt.Sprintf("all.%d", seed), fmt.Sprintf("lent.%d", seed)
		compareOrders(t, fmt.Sprint("seed ", seed), read(t, traces[all]), edges[all], read(t, traces[few]), edges[few])
	}
}

// FuzzLend does so with any seed: go test -fuzz FuzzLend ./internal/endtoend
func FuzzLend(f *testing.F) {
	f.Add(int64(61), uint8(100))
	f.Fuzz(func(t *testing.T, seed int64, steps uint8) {
		requireJudge(t)
		dir := t.TempDir()
		traces := map[string]string{"all": filepath.Join(dir, "all"), "lent": filepath.Join(dir, "lent")}
		w := newWalk(seed, int(steps))
		w.write(t, traces["all"], 0)
		w.write(t, traces["lent"], lentNames)
		edges := askAll(t, "edges", traces)
		compareOrders(t, fmt.Sprint("seed ", seed), read(t, traces["all"]), edges["all"], read(t, traces["lent"]), edges["lent"])
	})
}

func read(t *testing.T, path string) string {
	t.Helper()
	b, err := os.ReadFile(path)
	if err != nil {
		t.Fatal(err)
	}
	return string(b)
}
