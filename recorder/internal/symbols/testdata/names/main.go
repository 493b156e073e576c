// Each line that ends in a comment beginning with read, write, deep, use, global or static has the names that are expected there:
// the access, the type of the object, the size if it has several values, the offset; then the name.
package main

import (
	"bytes"
	"os"
	"sort"
	"strings"
	"sync"
	"time"

	"example.com/names/store"
)

type limits struct {
	low, high int
	steps     [3]int
}

type base struct {
	id   int
	tags []string
}

type account struct {
	base
	mu     sync.Mutex
	owner  string
	limits limits
	when   time.Time
	next   *account
	notes  map[string]int
}

type point struct{ x, y int }

type grid struct {
	rows  []point
	cells [4]point
	*base
	done chan bool
}

type stack[T any] struct {
	items []T
	last  T
}

type counter struct{ n *int }

func (c counter) add() {
	*c.n++ // write int+0: counter_n_at
}

func (s *stack[T]) push(v T) {
	s.items = append(s.items, v) // write main.stack[string]+0: stack_items
	s.last = v                   // write main.stack[string]+24: stack_last
}

//go:noinline
func (a *account) deposit(n int) {
	a.limits.high += n // write main.account+64: account_limits_high; read main.account+64: account_limits_high
	a.id++             // write main.account+0: account_id
	l := &a.limits
	l.low = n                   // write main.account+56: account_limits_low
	l.steps[n&1] = n            // write main.account+80: account_limits_steps_elem
	a.when = when(n)            // write main.account+104: account_when
	a.tags = append(a.tags, "") // write string*4+48: account_tags_elem; write main.account+16: account_tags
	a.next.owner = "you"        // write main.account+48: account_owner; read main.account+120: account_next
	a.notes["a"] = n            // write map: account_notes
}

func when(n int) time.Time { return time.Unix(int64(n), 0) }

//go:noinline
func (g *grid) set(i int) {
	g.rows[i].x = 7         // write main.point*5+64: point_x; read main.grid+0: grid_rows
	g.rows[i] = point{i, i} // write main.point*5+8: point_y
	g.cells[i&3].y++        // write main.grid+64: point_y
	g.id = 3                // write main.base+0: base_id; read main.grid+88: grid_base
	p := &g.rows[i]
	p.y = 2                    // write main.point*5+24: point_y
	for j, r := range g.rows { // read main.point*5+32: point_x
		total += r.x + j // global main.total: total
	}
	g.rows[0].y = 2             // write main.point+8: point_y
	for _, c := range g.cells { // read main.grid+40: point_x
		total -= c.y
	}
}

var total int

var (
	kept  []*grid
	boxes []interface{}
	array = new([4]int)
)

var settings struct {
	timeout int
	names   [2]string
	inner   limits
}

var config = limits{1, 2, [3]int{1, 2, 3}}

var (
	flags   = make([]bool, 8)
	shown   = &point{1, 2}
	literal = []int{1, 2, 3}
)

//go:noinline
func globals(i int) {
	store.Cache.Hits += i // global example.com/names/store.Cache: Cache_Hits
	store.Miss()
	os.Args = os.Args[:1]     // global os.Args: Args
	settings.timeout = i      // global main.settings: settings_timeout
	settings.names[i&1] = "x" // global main.settings+24: settings_names_elem
	settings.inner.high = i   // global main.settings+48: settings_inner_high
	config.steps[i&1] = 2     // global main.config+24: limits_steps_elem
	literal[i&1] = i          // static main.literal+8: literal_elem
	shown.y = i               // static main.shown+8: point_y
	flags[i&1] = true         // write bool*32+3: flags_elem
}

//go:noinline
func captured(n int, words []string, m map[int]*point) {
	hits, ok, matrix := 0, false, [2][2]int{}
	var buf bytes.Buffer
	var last *point
	done := make(chan bool)
	go func() {
		hits += n                     // write int+0: hits
		ok = !ok                      // write bool+0: ok
		matrix[n&1][1] = n            // write [2][2]int+24: matrix_elem_elem
		last = &point{n, n}           // write *main.point+0: last; write main.point+8: point_y
		m[n] = last                   // write map: m
		delete(m, n)                  // write map: m
		words[0], words[n&1] = "", "" // write string*4+32: words_elem
		copy(words, words[n:])        // write string*4+32: words_elem
		buf.WriteString("a")          // write bytes.Buffer+24: buf
		sort.Strings(words)           // deep string*4+16: words_elem
		sort.Slice(words, func(i, j int) bool {
			return words[i] < words[j] // read string*4+16: words_elem
		})
		if v := m[n]; v != nil && v.x > 0 { // read main.point+0: point_x; read map: m
			hits++
		}
		done <- ok // read bool+0: ok; use <- to: done
	}()
	<-done                                                     // use <- from: done
	println(hits, ok, matrix[0][0], last.x, buf.Len(), len(m)) // read *main.point+0: last; read int+0: hits
}

//go:noinline
func results(n int) (err error, count int) {
	defer func() {
		count++ // write int+0: count
	}()
	if n > 3 {
		return os.ErrExist, n // write error+0: err
	}
	go func() { err = nil }() // write error+0: err
	return
}

//go:noinline
func pointers(p *int, pp **int, xs *[4]int, s []byte, raw []int) string {
	**pp = *p     // read int+0: p_at
	*p = 1        // write int+0: p_at
	xs[2] = *p    // write [4]int+16: xs_elem
	raw[*p] += *p // write int*5+24: raw_elem
	s[*p]++       // write ?/48+5: s_elem
	ps := &s
	(*ps)[1] = 2     // write ?/48+1: ps_at_elem
	return string(s) // read ?/48+0: s_elem
}

func counting(n int) func() int {
	made := n // write int+0: made
	return func() int {
		made++ // write int+0: made
		return made
	}
}

//go:noinline
func sized[T any](xs []T, v T) {
	xs[0] = v // write int*6+8: xs_elem
	for i := range xs {
		xs[i] = v // write int*6+8: xs_elem
	}
}

//go:noinline
func locks(a *account, all []*account, g *grid) {
	a.mu.Lock() // use Lock: account_mu
	defer a.mu.Unlock()
	*all[0] = account{} // write main.account+48: account_owner
	for i := range all {
		all[i].mu.Lock()   // use Lock: account_mu
		all[i].mu.Unlock() // use Unlock: account_mu
	}
	var once sync.Once
	once.Do(func() { println("once") }) // use Do: once
	var wg sync.WaitGroup
	wg.Add(1)                 // use Add: wg
	go func() { wg.Done() }() // use Done: wg
	wg.Wait()
	select { // use <- to: grid_done
	case g.done <- true:
	case <-time.After(time.Second):
	}
	close(g.done) // use close: grid_done
}

func main() {
	n := len(os.Args)
	a := &account{notes: map[string]int{}, next: &account{}, base: base{tags: strings.Fields("a b c")}}
	a.deposit(n)
	g := &grid{rows: make([]point, 5), base: &base{}, done: make(chan bool, 1)}
	kept = append(kept, g)
	g.set(n)
	globals(n)
	captured(n, strings.Fields("b a c d"), map[int]*point{})
	results(n)
	x := n
	px := &x
	println(pointers(px, &px, array, make([]byte, 40), make([]int, 5)))
	sized(make([]int, 6), n)
	sized(make([]string, 6), "")
	counter{px}.add()
	s := &stack[string]{}
	s.push("a")
	i := &stack[int]{}
	i.push(n)
	boxes = append(boxes, s, i, counting(n))
	locks(a, []*account{a.next}, g)
	println(total, flags[0], config.low, shown.x, s.last, i.last)
}
