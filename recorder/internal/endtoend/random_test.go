package endtoend

import (
	"flag"
	"fmt"
	"math/rand"
	"os"
	"path/filepath"
	"regexp"
	"sort"
	"strings"
	"testing"
)

var (
	randomPrograms = flag.Int("random", 0, "so many random programs are recorded")
	randomSeed     = flag.Int64("randomseed", 1, "the first of them")
)

const (
	gadgets  = 12  // of a program
	together = 500 // programs that are built as one
	built    = 600 // gadgets at most that these are made of
)

// TestRandomPrograms records random programs, with what one goroutine alone does and without
// it. The variables that race are those that race by construction, and no trace is illegal.
func TestRandomPrograms(t *testing.T) {
	requireJudge(t)
	if *randomPrograms == 0 {
		t.Skip("no -random")
	}
	last := *randomSeed + int64(*randomPrograms)
	for first := *randomSeed; first < last; first += together {
		end := first + together
		if end > last {
			end = last
		}
		recordRandom(t, first, end)
	}
}

// recordRandom builds random gadgets as one program, which runs those that it is told. Each seed
// from a first one to before an end picks some.
func recordRandom(t *testing.T, first, end int64) {
	t.Helper()
	all := makeGadgets(first, int(end-first)*gadgets)
	dir := t.TempDir()
	defer os.RemoveAll(dir)
	sources, cases := randomHead, randomMain
	for _, g := range all {
		sources += g.source
		cases += fmt.Sprintf("case \"%d\":\ngadget%d(&wg)\n", g.n, g.n)
	}
	writeFile(t, filepath.Join(dir, "go.mod"), "module random\n\ngo 1.18\n")
	writeFile(t, filepath.Join(dir, "gadgets.go"), sources)
	writeFile(t, filepath.Join(dir, "main.go"), cases+"}\n}\natomic.AddInt64(&other, 1)\nwg.Wait()\n}\n")
	program := filepath.Join(dir, "program")
	build(t, dir, program, ".")
	for seed := first; seed < end; seed++ {
		p := pickProgram(seed, all)
		if !t.Run(fmt.Sprint("seed", seed), func(t *testing.T) { p.check(t, program) }) {
			t.Logf("seed %d:\n%s", seed, p.source)
		}
	}
}

func writeFile(t *testing.T, path, text string) {
	t.Helper()
	if err := os.WriteFile(path, []byte(text), 0o644); err != nil {
		t.Fatal(err)
	}
}

// check records the gadgets of a program, whole and in segments.
func (p *randomProgram) check(t *testing.T, program string) {
	t.Helper()
	dir, seed := t.TempDir(), fmt.Sprint(p.seed)
	traces := map[string]string{}
	for _, all := range []string{"false", "true"} {
		traces[all] = filepath.Join(dir, "all."+all)
		p.record(t, program, stub(t), "-seed", seed, "-all="+all, "-o", traces[all])
	}
	for all, report := range judgeAll(t, traces) {
		if got := racyOnes(report); got != p.racy {
			t.Errorf("all %s: races on %s, not on %s\n%s", all, got, p.racy, report)
		}
	}
	segments := p.recordSegments(t, program, dir)
	for segment, report := range judgeAll(t, segments) {
		for _, got := range strings.Fields(racyOnes(report)) {
			if !strings.Contains(" "+p.racy+" ", " "+got+" ") {
				t.Errorf("segment %s: a race on %s, not on %s\n%s", segment, got, p.racy, report)
			}
		}
	}
	t.Logf("%d segments", len(segments))
}

// record runs the program with its gadgets.
func (p *randomProgram) record(t *testing.T, program, judge string, words ...string) {
	t.Helper()
	words = append(append([]string{"exec", "-gorace", judge}, words...), program)
	out, errs, status := runWith(t, filepath.Dir(program), []string{"GADGETS=" + p.picked}, words...)
	if status != 0 {
		t.Errorf("%v: status %d\n%s%s", words, status, out, errs)
	}
}

// recordSegments records the program in short segments, and answers their traces. Races between segments aren't told, but no
// race is told that is none.
func (p *randomProgram) recordSegments(t *testing.T, program, dir string) (segments map[string]string) {
	t.Helper()
	keeper := filepath.Join(dir, "keeper")
	script := `#!/bin/sh
cat >` + dir + `/segment.$$
if grep -q '^var _' ` + dir + `/segment.$$; then # as long as variables have no names
	rm ` + dir + `/segment.$$
	echo 'race on _: write by g1 at a.go:1 (event 1), write by g2 at a.go:2 (event 2)'
	exit 66
fi
echo 'clean: 0 events, 0 accesses'
`
	if err := os.WriteFile(keeper, []byte(script), 0o755); err != nil {
		t.Fatal(err)
	}
	p.record(t, program, keeper, "-seed", fmt.Sprint(p.seed), "-all", "-records", "1024", "-o", os.DevNull)
	files, err := filepath.Glob(dir + "/segment.*")
	if err != nil || len(files) == 0 {
		t.Errorf("%d segments: %v", len(files), err)
	}
	segments = map[string]string{}
	for _, f := range files {
		segments[filepath.Base(f)] = f
	}
	return segments
}

var gadgetName = regexp.MustCompile(`q(\d+)q`)

// racyOnes are the numbers of the gadgets whose variables race; or the report, if it is of no
// legal trace.
func racyOnes(report string) string {
	if !strings.HasPrefix(report, "clean: ") && !strings.Contains("\n"+report, "\nraces: ") {
		return "an illegal trace"
	}
	found := map[string]bool{}
	for _, m := range raced.FindAllStringSubmatch(report, -1) {
		if n := gadgetName.FindStringSubmatch(m[1]); n != nil {
			found[n[1]] = true
		} else {
			found[m[1]] = true
		}
	}
	var names []string
	for n := range found {
		names = append(names, n)
	}
	sort.Strings(names)
	return strings.Join(names, " ")
}

// maker makes gadgets. A gadget is a variable, and goroutines that use it in one of the ways
// below; none but main has anything to do with another one.
type maker struct {
	*rand.Rand
	strings.Builder
	n    int
	form form
}

// form is how a variable is declared and used; %d is the number of its gadget. It may be one of the
// bytes of a slice, with all of which more is done.
type form struct{ top, local, place, value, slice string }

var variableForms = []form{
	{"var q%dq int", "", "q%dq", "%d", ""},
	{"", "var q%dq int", "q%dq", "%d", ""},
	{"", "q%dq := make([]int, 4)", "q%dq[2]", "%d", ""},
	{"var q%dq [3]int", "", "q%dq[1]", "%d", ""},
	{"type t%[1]d struct{ a string; q%[1]dq int; b byte }", "p := &t%d{a: \"a\"}", "p.q%dq", "%d", ""},
	{"type t%[1]d struct{ a [2]string; q%[1]dq uint8 }; var p%[1]d t%[1]d", "", "p%[1]d.q%[1]dq", "%d", ""},
	{"", "q%dq := new(int)", "*q%dq", "%d", ""},
	{"", "q%dq := map[string]int{}", "q%dq[\"k\"]", "%d", ""},
	{"var q%dq string", "", "q%dq", "name(%d)", ""},
	{"", "var q%dq any", "q%dq", "any(%d)", ""},
	{"", "q%dq := make([]byte, 90)", "q%dq[40]", "%d", "q%dq"},
}

func (m *maker) write(format string, a ...any) { fmt.Fprintf(m, format+"\n", a...) }

func (m *maker) pick(s ...string) string { return s[m.Intn(len(s))] }

func (m *maker) number(format string) string {
	if !strings.Contains(format, "%") {
		return format
	}
	return fmt.Sprintf(format, m.n)
}

// reads and writes are statements that use the variable.
func (m *maker) reads() string {
	place := m.number(m.form.place)
	if m.form.slice != "" && m.Intn(2) == 0 {
		return "use(string(" + m.number(m.form.slice) + "))"
	}
	return m.pick("use("+place+")", "for i := 0; i < 3; i++ { use("+place+") }", "{ x := "+place+"; use(x) }", "help(func() { use("+place+") })")
}

func (m *maker) writes() string {
	place := m.number(m.form.place)
	set := place + " = " + fmt.Sprintf(m.form.value, m.Intn(200))
	forms := []string{set, set, "for i := 0; i < 4; i++ { " + set + " }", "help(func() { " + set + " })", "use(" + place + "); " + set, set + "; use(" + place + ")"}
	if m.form.value == "%d" {
		forms = append(forms, place+"++", place+" += 3", "for i := 0; i < 3; i++ { "+place+"++ }")
	}
	if m.form.slice != "" {
		all := m.number(m.form.slice)
		forms = append(forms, "copy("+all+", make([]byte, 90))", "for i := range "+all+" { "+all+"[i] = 0 }", "for i := range "+all+" { "+all+"[i] = byte(i) }")
	}
	return m.pick(forms...)
}

func (m *maker) either() string {
	if m.Intn(2) == 0 {
		return m.reads()
	}
	return m.writes()
}

// some is a few of what f makes, with what orders nothing between.
func (m *maker) some(f func() string) string {
	lines := []string{f()}
	for m.Intn(3) > 0 {
		lines = append(lines, m.noise(), f())
	}
	return strings.Join(lines, "\n")
}

// noise orders nothing before what another goroutine does.
func (m *maker) noise() string {
	return m.pick("", "runtime.Gosched()", "own.Lock(); own.Unlock()", "common.RLock(); common.RUnlock()", "line <- 1; <-line",
		"atomic.AddInt64(&count, 1)", "mine++", "mine = mine*3 + 1", fmt.Sprintf("time.Sleep(%d * time.Microsecond)", m.Intn(60)),
		"pause.Lock(); mine += 2; pause.Unlock()", "if common.TryRLock() { common.RUnlock() }")
}

// spawn starts a goroutine.
func (m *maker) spawn(lines ...string) {
	m.write("wg.Add(1)\ngo func() {\ndefer wg.Done()\nvar own, pause, first, second sync.Mutex\nvar count int64\nline, mine := make(chan int, 1), 0")
	m.write("use(&own); use(&pause); use(&first); use(&second); use(&count); use(line); use(mine)")
	for _, l := range lines {
		m.write("%s\n%s", m.noise(), l)
	}
	m.write("%s\n}()", m.noise())
}

func locked(lock, what, unlock string) string { return lock + "\n" + what + "\n" + unlock }

// clean are gadgets without a race.
var clean = []func(*maker){
	func(m *maker) { // a mutex
		m.write("var mu sync.Mutex")
		for i := m.Intn(3); i >= -1; i-- {
			m.spawn(locked("mu.Lock()", m.some(m.either), "mu.Unlock()"), locked("mu.Lock()", m.some(m.either), "mu.Unlock()"))
		}
	},
	func(m *maker) { // an rwmutex
		m.write("var mu sync.RWMutex")
		for i := m.Intn(2); i >= -1; i-- {
			m.spawn(locked("mu.RLock()", m.some(m.reads), "mu.RUnlock()"), locked("mu.Lock()", m.some(m.either), "mu.Unlock()"))
		}
	},
	func(m *maker) { // handed on by a channel, there and back
		m.write("there, back := make(chan int%s), make(chan int%s)", m.pick("", ", 1"), m.pick("", ", 1"))
		m.spawn(m.some(m.either), "there <- 1", "<-back", m.some(m.either))
		m.spawn("<-there", m.some(m.either), "back <- 1")
	},
	func(m *maker) { // alone
		m.spawn(m.some(m.either), m.some(m.either), m.some(m.either))
	},
	func(m *maker) { // by who starts those that read
		m.write(m.writes())
		m.spawn(m.some(m.reads))
		m.spawn(m.some(m.reads), m.some(m.reads))
	},
	func(m *maker) { // waited for
		m.write("var done sync.WaitGroup\ndone.Add(1)")
		m.spawn(m.some(m.either), m.some(m.either), "done.Done()")
		m.spawn("done.Wait()", m.some(m.either))
	},
	func(m *maker) { // closed, and both only read after it
		m.write("c := make(chan int)")
		m.spawn(m.some(m.either), m.writes(), "close(c)", m.some(m.reads))
		m.spawn("<-c", m.some(m.reads))
		m.spawn("for range c {}", m.some(m.reads))
	},
	func(m *maker) { // once
		m.write("var once sync.Once")
		for i := 0; i < 3; i++ {
			m.spawn("once.Do(func() {", m.some(m.writes), "})", m.some(m.reads))
		}
	},
	func(m *maker) { // a starter's, then the started one's, then the starter's again
		m.write("c := make(chan int)")
		m.spawn(m.some(m.either), "wg.Add(1)\ngo func() {\ndefer wg.Done()\n"+m.writes()+"\n"+m.either()+"\nclose(c)\n}()", "<-c", m.some(m.either))
	},
	func(m *maker) { // a ready flag
		m.write("var ready int32")
		m.spawn(m.some(m.either), "atomic.StoreInt32(&ready, 1)")
		m.spawn("for atomic.LoadInt32(&ready) == 0 { runtime.Gosched() }", m.some(m.either))
	},
}

// racing are gadgets with a race, in whatever order things happen.
var racing = []func(*maker){
	func(m *maker) { // no order at all
		m.spawn(m.some(m.either), m.some(m.writes))
		m.spawn(m.some(m.either))
	},
	func(m *maker) { // written after what orders
		m.write("c := make(chan int)")
		m.spawn(m.some(m.either), "close(c)", m.some(m.writes))
		m.spawn("<-c", m.some(m.either))
	},
	func(m *maker) { // read after what orders
		m.write("c := make(chan int)")
		m.spawn(m.some(m.either), "close(c)", m.some(m.reads))
		m.spawn("<-c", m.some(m.writes))
	},
	func(m *maker) { // one has it in order, the other not
		m.write("c := make(chan int, 1)")
		m.spawn(m.some(m.either), m.writes(), "c <- 1")
		m.spawn("<-c", m.some(m.reads))
		m.spawn(m.some(m.either))
	},
	func(m *maker) { // two locks
		m.spawn(locked("first.Lock()", m.some(m.either), "first.Unlock()"), locked("second.Lock()", m.some(m.writes), "second.Unlock()"))
		m.spawn(locked("first.Lock()", m.some(m.either), "first.Unlock()"))
	},
	func(m *maker) { // locked for reading, and written
		m.spawn(locked("common.RLock()", m.some(m.writes), "common.RUnlock()"))
		m.spawn(locked("common.RLock()", m.some(m.either), "common.RUnlock()"))
	},
	func(m *maker) { // one forgets the lock
		m.write("var mu sync.Mutex")
		m.spawn(locked("mu.Lock()", m.some(m.writes), "mu.Unlock()"), locked("mu.Lock()", m.some(m.either), "mu.Unlock()"))
		m.spawn(locked("mu.Lock()", m.some(m.either), "mu.Unlock()"))
		m.spawn(m.some(m.reads))
	},
	func(m *maker) { // who starts goes on
		m.spawn(m.some(m.either), "wg.Add(1)\ngo func() {\ndefer wg.Done()\n"+m.writes()+"\n}()", m.some(m.either))
	},
	func(m *maker) { // the last of many
		for i := 0; i < 4; i++ {
			m.spawn(m.some(m.reads))
		}
		m.spawn("time.Sleep(200 * time.Microsecond)", m.writes())
	},
}

const (
	randomMain = `package main

import (
	"fmt"
	"os"
	"strings"
	"sync"
	"sync/atomic"
)

var (
	common sync.RWMutex
	other  int64
)

func use[T any](T) {}

func help(f func()) { f() }

func name(n int) string { return fmt.Sprint("n", n) }

func main() {
var wg sync.WaitGroup
for _, n := range strings.Fields(os.Getenv("GADGETS")) {
switch n {
`

	randomHead = `package main

import (
	"runtime"
	"sync"
	"sync/atomic"
	"time"
)

var (
	_ = time.Microsecond
	_ = runtime.Gosched
	_ = atomic.AddInt64
)
`
)

// A gadget is a function gadgetN of the wait group that main waits for.
type gadget struct {
	n      int
	source string
	racy   bool
}

func makeGadgets(seed int64, count int) []gadget {
	if count > built {
		count = built
	}
	m := &maker{Rand: rand.New(rand.NewSource(seed))}
	all := make([]gadget, count)
	for i := range all {
		m.Reset()
		m.n, m.form = i, variableForms[m.Intn(len(variableForms))]
		m.write("%s\nfunc gadget%d(wg *sync.WaitGroup) {\n%s", m.number(m.form.top), m.n, m.number(m.form.local))
		if m.form.local != "" {
			m.write("use(&%s)", strings.TrimSuffix(strings.Fields(strings.TrimPrefix(m.number(m.form.local), "var "))[0], ":="))
		}
		racy := m.Intn(2) == 0 && !strings.Contains(m.form.local, "map[") // two changes of a map at once end a program
		if racy {
			racing[m.Intn(len(racing))](m)
		} else {
			clean[m.Intn(len(clean))](m)
		}
		m.write("}")
		all[i] = gadget{i, m.String(), racy}
	}
	return all
}

// A randomProgram runs some gadgets.
type randomProgram struct {
	seed         int64
	picked, racy string // the numbers of its gadgets, and of those that race
	source       string
}

func pickProgram(seed int64, all []gadget) *randomProgram {
	p := &randomProgram{seed: seed}
	var racy []string
	for _, i := range rand.New(rand.NewSource(seed)).Perm(len(all))[:gadgets] {
		p.picked += fmt.Sprint(i, " ")
		p.source += all[i].source
		if all[i].racy {
			racy = append(racy, fmt.Sprint(i))
		}
	}
	sort.Strings(racy)
	p.racy = strings.Join(racy, " ")
	return p
}
