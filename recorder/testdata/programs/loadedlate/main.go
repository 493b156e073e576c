// clean

package main

import (
	"encoding/json"
	"fmt"
	"os"
	"sync"
)

// Go's compiler loads variables after the calls of a statement, and evaluates left sides after those
// of the right ones. Programs go by that, so the recorder keeps it.

type config struct{ A, B int }

func parse(text []byte) (config, error) {
	var c config
	return c, json.Unmarshal(text, &c)
}

func set(n *int) int {
	*n += 7
	return 1
}

// group waits for functions, as that of golang.org/x/sync/errgroup does.
type group struct {
	sync.WaitGroup
	mu  sync.Mutex
	err error
}

func (g *group) do(f func() error) {
	g.Add(1)
	go func() {
		defer g.Done()
		if err := f(); err != nil {
			g.mu.Lock()
			g.err = err
			g.mu.Unlock()
		}
	}()
}

func (g *group) finish() error {
	g.Wait()
	return g.err
}

// sum is read after finish, which waits for those that write it.
func sum(parts [][]int) (int, error) {
	var g group
	total := 0
	for _, p := range parts {
		p := p
		g.do(func() error {
			g.mu.Lock()
			defer g.mu.Unlock()
			for _, n := range p {
				total += n
			}
			return nil
		})
	}
	return total, g.finish()
}

// tree keeps its nodes in a slice that grows while they are made.
type tree struct{ nodes []node }

type node struct{ left, right, size int }

func (t *tree) make() int {
	t.nodes = append(t.nodes, node{})
	return len(t.nodes) - 1
}

func (t *tree) build(depth int) int {
	i := t.make()
	if depth > 0 {
		t.nodes[i].left = t.build(depth - 1)
		t.nodes[i].right, t.nodes[i].size = t.build(depth-1), 1
		t.nodes[i].size += t.nodes[t.nodes[i].left].size + t.count(t.nodes[i].right)
	}
	return i
}

func (t *tree) count(i int) int { return t.nodes[i].size }

// list is appended to by what is asked for its next element.
type list struct{ items []int }

func (l *list) next(n int) int {
	if n > 0 {
		l.items = append(l.items, l.next(n-1))
	}
	return n
}

type cache struct {
	m     map[string]int
	loads int
}

func (c *cache) load(k string) int {
	if c.m == nil {
		c.m = map[string]int{"first": 1}
	}
	c.loads++
	return len(k)
}

func (c *cache) pair() (int, error) {
	c.m = map[string]int{"second": c.m["second"]}
	return 5, nil
}

type writer struct {
	total int
	next  *writer
}

func (w *writer) grow() int {
	w.next = &writer{}
	w.total = 10
	return 3
}

// stack has elements of any type, also of error and of channels.
type stack[T any] struct {
	items []T
	errs  chan error
	last  error
}

func (s *stack[T]) grow(item T) error {
	s.items = append(s.items, item)
	return s.last
}

func (s *stack[T]) push(item T) ([]T, error) { return s.items, s.grow(item) }

func (s *stack[T]) size() int { return len(s.items) }

func (s *stack[T]) fail(err error) (error, int) {
	s.errs <- err
	set := func() int { s.last = <-s.errs; return 1 }
	return s.last, set()
}

func (s *stack[T]) swap(item T) {
	other := func() T { s.items = append([]T{}, s.items...); return item }
	s.items[0] = other()
	s.items[s.size()-1], s.last = other(), nil
}

func generics[T any](one T) string {
	s := &stack[T]{errs: make(chan error, 1)}
	items, err := s.push(one)
	was, n := s.fail(os.ErrExist)
	s.swap(one)
	return fmt.Sprint(len(items), err, was, n, s.size(), s.last)
}

func check(what string, got, want any) {
	if fmt.Sprint(got) != fmt.Sprint(want) {
		fmt.Println(what, "is", got, "and not", want)
		os.Exit(1)
	}
}

func values() {
	c, err := parse([]byte(`{"A":1,"B":2}`))
	check("parse", fmt.Sprint(c, err), "{1 2} <nil>")
	n := 0
	sums := []int{n + set(&n), n - set(&n)*2, n, set(&n)}
	check("sums", sums, "[22 19 21 1]")
	check("arguments", fmt.Sprint(n, set(&n), n), "28 1 28")
	both := n > 0 && set(&n) == 1
	check("both", fmt.Sprint(n, both), "35 true")
	done := make(chan int, 1)
	go func() { n = 50; done <- 2 }()
	check("received", n+<-done, 52)
	swap, other := 1, 2
	point := func(a, b *int) int { *a, *b = 5, 6; return 9 }
	swap, other = other, point(&swap, &other)
	check("swapped", fmt.Sprint(swap, other), "6 9")
}

func leftSides() {
	t := &tree{}
	t.build(4)
	check("nodes", len(t.nodes), 31)
	check("left of the first", t.nodes[0].left, 1)
	check("right of the first", t.nodes[0].right, 16)
	l := &list{}
	l.items = append(l.items, l.next(3))
	check("items", l.items, "[0 1 2 3]")
	c := &cache{}
	c.m["k"] = c.load("k")
	c.m["k"] += c.load("long")
	check("map", c.m, "map[first:1 k:5]")
	var err error
	c.m["second"], err = c.pair()
	check("map of a pair", fmt.Sprint(c.m, err), "map[second:5] <nil>")
	w := &writer{}
	w.next.total = w.grow()
	w.next.total += w.next.grow() +
		w.grow()
	check("writer", fmt.Sprint(w.total, w.next.total), "10 6")
	if w.next.total = w.grow(); w.next.total != 3 {
		check("writer in a head", w.next.total, 3)
	}
}

func main() {
	values()
	leftSides()
	go func() {}()
	values()
	leftSides()
	const generic = "1 <nil> file already exists 1 1 <nil>"
	check("integers", generics(1), generic)
	check("errors", generics(os.ErrClosed), generic)
	check("channels", generics(make(chan error)), generic)
	check("functions", generics(func() error { return nil }), generic)
	n, err := sum([][]int{{1, 2}, {3}, {4, 5, 6}})
	check("sum", fmt.Sprint(n, err), "21 <nil>")
}
