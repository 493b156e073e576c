package endtoend

import (
	"fmt"
	"os"
	"os/exec"
	"path/filepath"
	"testing"
)

// newer are programs with what newer Go has. What its package sync orders doesn't race.
var newer = []struct {
	name    string
	minor   int // of the first Go that has it
	imports string
	body    string
	verdict
}{
	{"sync.OnceValue", 21, `"sync"`, `	x := 0
	set := sync.OnceFunc(func() { x = 1 })
	value := sync.OnceValue(func() int { x++; return x })
	values := sync.OnceValues(func() (int, error) {
		n := value()
		x += n
		return x, nil
	})
	done := make(chan bool)
	for i := 0; i < 3; i++ {
		go func() {
			set()
			n, _ := values()
			done <- n == 4 && x == 4
		}()
	}
	for i := 0; i < 3; i++ {
		if !<-done {
			panic(x)
		}
	}
`, verdict{}},
	{"a panic of sync.OnceFunc", 21, `once "sync"`, `	x := 0
	fail := once.OnceFunc(func() { x = 1; panic("no") })
	try := func() (p any) {
		defer func() { p = recover() }()
		fail()
		return nil
	}
	done := make(chan bool)
	go func() { done <- try() == "no" && x == 1 }()
	if try() != "no" || x != 1 || !<-done {
		panic(x)
	}
`, verdict{}},
	{"context's functions of a cause", 21, "(\n\t\"context\"\n\t\"errors\"\n\t\"time\"\n)", `	x, racy, done := 0, 0, make(chan int)
	ctx, cancel := context.WithCancelCause(context.Background())
	below, stop := context.WithTimeoutCause(ctx, time.Hour, errors.New("late"))
	defer stop()
	context.AfterFunc(below, func() { done <- x })
	go func() {
		<-below.Done()
		racy++
		done <- x
	}()
	x = 5
	cancel(errors.New("enough"))
	racy++
	if <-done+<-done != 10 || context.Cause(below).Error() != "enough" {
		panic(context.Cause(below))
	}
`, verdict{races: []string{"racy"}}},
	{"packages slices and maps", 21, "(\n\t\"cmp\"\n\t\"maps\"\n\t\"slices\"\n)\n\ntype ints []int", `	sorted, found, moved, same := ints{1, 3, 2}, []int{1, 2, 3}, make(ints, 4, 5), []string{"a", "b"}
	from, to, kept := map[int]int{1: 1}, map[int]int{}, map[string]bool{"a": true}
	done := make(chan bool)
	go func() {
		slices.Sort(sorted)
		found[2]++
		slices.SortFunc(same, cmp.Compare)
		moved = slices.Insert(moved, 1, 7)
		maps.Copy(to, from)
		maps.DeleteFunc(kept, func(k string, v bool) bool { return !v })
		done <- true
	}()
	if slices.Max(sorted[1:2]) == 0 || slices.Index(found, 2) != 1 || !slices.Contains(same, "a") || moved[0] != 0 {
		panic(sorted)
	}
	if c := maps.Clone(from); !maps.Equal(c, from) || !kept["a"] || len(to) > 1 {
		panic(c)
	}
	<-done
	if n, found := slices.BinarySearchFunc(sorted, 2, func(a, b int) int { return a - b }); n != 1 || !found || moved[1] != 7 {
		panic(n)
	}
`, verdict{races: []string{"moved", "sorted_elem", "to"}}},
	{"atomic bits and what a sync.Map has", 23, "(\n\t\"sync\"\n\t\"sync/atomic\"\n)", `	x, racy, bits, flags := 0, 0, atomic.Uint32{}, uint64(0)
	var m sync.Map
	done := make(chan bool)
	go func() {
		x = 1
		bits.Or(4)
		for atomic.AndUint64(&flags, 3) != 2 {
		}
		x++
		m.Store("a", 1)
		racy++
		done <- true
	}()
	for bits.And(6) != 4 {
	}
	x++
	atomic.OrUint64(&flags, 2)
	for !m.CompareAndSwap("a", 1, 2) {
	}
	x++
	racy++
	<-done
	if v, loaded := m.Swap("a", 3); v != 2 || !loaded || !m.CompareAndDelete("a", 3) || x != 4 {
		panic(x)
	}
	go func() {
		x++
		m.Store("b", 1)
		m.Clear()
		x++
		m.Store("c", 1)
	}()
	for _, ok := m.Load("c"); !ok; _, ok = m.Load("c") {
	}
	if x != 6 {
		panic(x)
	}
`, verdict{races: []string{"racy"}}},
	{"iterators", 23, "(\n\t\"iter\"\n\t\"maps\"\n\t\"slices\"\n\t\"sync\"\n)", `	x, racy, all, byName := 0, 0, []int{1, 2, 3}, map[string]int{"a": 1}
	var lock sync.Mutex
	next, stop := iter.Pull(func(yield func(int) bool) {
		racy++
		lock.Lock()
		defer lock.Unlock()
		for _, v := range all {
			if x += v; !yield(v) {
				return
			}
		}
	})
	done := make(chan bool)
	go func() {
		racy++
		lock.Lock()
		x++
		lock.Unlock()
		all[2] = 4
		byName["b"] = 2
		done <- true
	}()
	next()
	x++
	next()
	stop()
	for v := range slices.Values(all) {
		if v == 2 {
			break
		}
	}
	for range maps.Keys(byName) {
		break
	}
	<-done
	later, end := iter.Pull2(slices.All(all))
	defer end()
	go func() { later(); done <- true }()
	<-done
	if i, v, ok := later(); i != 1 || v != 2 || !ok {
		panic(v)
	}
`, verdict{races: []string{"byName", "racy"}}},
	{"an alias with type parameters", 24, "\"sync\"\n\ntype set[T comparable] = map[T]struct{}\n\ntype mutex = sync.Mutex", `	var lock mutex
	locked, racy := set[int]{}, set[int]{}
	done := make(chan bool)
	for i := range 2 {
		go func() {
			lock.Lock()
			locked[i] = struct{}{}
			lock.Unlock()
			if i == 0 {
				racy[i] = struct{}{}
			}
			done <- true
		}()
	}
	_ = len(racy)
	<-done
	<-done
`, verdict{races: []string{"racy"}}},
	{"a benchmark's context", 24, `"testing"`, `	racy := 0
	testing.Benchmark(func(b *testing.B) {
		x, done := 0, make(chan bool)
		go func() {
			racy++
			<-b.Context().Done()
			x++
			close(done)
		}()
		racy++
		x++
		b.Cleanup(func() {
			<-done
			x++
		})
	})
`, verdict{races: []string{"racy"}}},
	{"what its version of Go has as a default", 23, "(\n\t\"net/http\"\n\t\"net/http/httptest\"\n\t\"time\"\n)", `	racy, found := 0, ""
	http.HandleFunc("GET /items/{id}", func(w http.ResponseWriter, r *http.Request) { found = r.PathValue("id") })
	http.DefaultServeMux.ServeHTTP(httptest.NewRecorder(), httptest.NewRequest("GET", "/items/7", nil))
	if n := cap(time.NewTimer(time.Hour).C); n != 0 || found != "7" {
		panic(found)
	}
	done := make(chan bool)
	go func() { racy++; done <- true }()
	racy++
	<-done
`, verdict{races: []string{"racy"}}},
	{"a bubble's time", 25, "(\n\t\"context\"\n\t\"testing\"\n\t\"testing/synctest\"\n\t\"time\"\n)", `	racy := 0
	bubble := func(t *testing.T) {
		c, begun := make(chan int), time.Now()
		ctx, cancel := context.WithTimeout(context.Background(), 3*time.Second)
		defer cancel()
		tick := time.NewTimer(2 * time.Second)
		go func() {
			racy++
			time.Sleep(time.Second)
			c <- 1
		}()
		racy++
		for i := 0; i < 3; i++ {
			select {
			case <-c:
			case <-tick.C:
			case <-ctx.Done():
			}
		}
		if waited := time.Since(begun); waited != 3*time.Second {
			t.Error(waited)
		}
	}
	run := func(t *testing.T) { synctest.Test(t, bubble) }
	all := func(string, string) (bool, error) { return true, nil }
	testing.Main(all, []testing.InternalTest{{Name: "bubble", F: run}}, nil, nil)
`, verdict{races: []string{"racy"}}},
	{"what a bubble waits for", 25, "(\n\t\"testing\"\n\t\"testing/synctest\"\n\t\"time\"\n)", `	x := 0
	bubble := func(t *testing.T) {
		go func() { x++ }()
		synctest.Wait()
		x++
		c := make(chan int)
		go func() {
			x++
			<-c
			x++
		}()
		synctest.Wait()
		x++
		close(c)
		synctest.Wait()
		x++
		time.AfterFunc(time.Second, func() { x++ })
		time.Sleep(time.Second)
		synctest.Wait()
		t.Cleanup(func() { x++ })
		if x++; x != 8 {
			t.Error(x)
		}
	}
	run := func(t *testing.T) {
		synctest.Test(t, bubble)
		x++
	}
	all := func(string, string) (bool, error) { return true, nil }
	testing.Main(all, []testing.InternalTest{{Name: "bubble", F: run}}, nil, nil)
`, verdict{}},
	{"clear of a type parameter's value", 21, "\"fmt\"\n\nfunc empty[T []int | map[int]int](t T) { clear(t) }", `	slice, m := []int{1}, map[int]int{1: 1}
	empty(slice)
	empty(m)
	if got := fmt.Sprint(slice, m); got != "[0] map[]" {
		panic(got)
	}
`, verdict{}},
	{"new of a value", 26, `"sync"`, `	var mu sync.Mutex
	x, racy, c := 0, 0, make(chan int)
	locked := func() int {
		mu.Lock()
		defer mu.Unlock()
		x++
		return x
	}
	go func() {
		n := *new(locked())
		racy = n
		c <- n
	}()
	last := *new(locked()) + *new(<-c)
	go func() { racy = last; c <- 0 }()
	seen := *new(racy)
	<-c
	if last != 3 || seen < 0 {
		panic(last)
	}
`, verdict{races: []string{"racy"}}},
	{"WaitGroup.Go", 25, `"sync"`, `	var group sync.WaitGroup
	x, racy := make([]int, 3), 0
	for i := range x {
		group.Go(func() {
			x[i] = i
			racy++
		})
	}
	group.Wait()
	if x[2] != 2 {
		panic(x[2])
	}
`, verdict{races: []string{"racy"}}},
}

// TestNewer: what newer Go has is recorded as what it does and orders, where Go has it.
func TestNewer(t *testing.T) {
	requireJudge(t)
	t.Parallel()
	traces, minor := map[string]string{}, minorOfGo(t)
	for _, p := range newer {
		if minor < p.minor {
			t.Logf("Go 1.%d doesn't have %s", minor, p.name)
			continue
		}
		dir := t.TempDir()
		for name, text := range map[string]string{
			"main.go": "package main\n\nimport " + p.imports + "\n\nfunc main() {\n" + p.body + "}\n",
			"go.mod":  fmt.Sprintf("module example.com/newer\n\ngo 1.%d\n", p.minor),
		} {
			if err := os.WriteFile(filepath.Join(dir, name), []byte(text), 0o644); err != nil {
				t.Fatal(err)
			}
		}
		program := filepath.Join(dir, "program")
		build(t, dir, program, ".")
		traces[p.name] = record(t, dir, program, "1", "0")
	}
	reports := judgeAll(t, traces)
	for _, p := range newer {
		if report, recorded := reports[p.name]; recorded {
			if err := p.check(report); err != nil {
				t.Errorf("%s: %v\n%s", p.name, err, report)
			}
		}
	}
}

// minorOfGo is the y of the command go's version go1.y.
func minorOfGo(t *testing.T) (minor int) {
	t.Helper()
	out, err := exec.Command("go", "env", "GOVERSION").Output()
	if err != nil {
		t.Fatal(err)
	}
	fmt.Sscanf(string(out), "go1.%d", &minor)
	return minor
}
