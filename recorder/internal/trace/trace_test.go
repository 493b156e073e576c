package trace

import (
	"fmt"
	"strings"
	"testing"
)

var table = []Site{{Place: "-"}, {Place: "a.go:1", Name: "x"}, {Place: "a.go:2", Name: "x"}, {Place: "a.go:3", Name: "mu"}}

// x is a variable.
var x = Object{Kind: Variable, Site: 1}

// of is a recording whose objects have the numbers from 1 on.
func of(records []Record, objects ...Object) *Recording {
	return &Recording{Records: records, Objects: append([]Object{{}}, objects...), Sites: table}
}

func written(t *testing.T, r *Recording) (string, *Summary) {
	t.Helper()
	return writtenAs(t, Options{Version: 1}, r)
}

func writtenAs(t *testing.T, o Options, r *Recording) (string, *Summary) {
	t.Helper()
	var b strings.Builder
	s, err := New(r, o).Write(&b)
	if err != nil {
		t.Fatal(err)
	}
	return b.String(), s
}

func TestWhatOneGoroutineUsesIsLeftOut(t *testing.T) {
	text, _ := written(t, of([]Record{
		{Op: Go, Other: 1, Site: 1},
		{Op: Lock, Object: 2, Goroutine: 1, Site: 3}, // by one alone
		{Op: Read, Object: 1, Goroutine: 1, Site: 2},
		{Op: Unlock, Object: 2, Goroutine: 1, Site: 3},
		{Op: Write, Object: 1, Site: 1},
		{Op: Go, Other: 2, Site: 2}, // does nothing
		{Op: Exit, Goroutine: 1, Site: 1},
		{Op: Exit, Goroutine: 2, Site: 1},
	}, x, Object{Kind: Mutex, Site: 3}))
	want := `gotrace 1
goroutine g1
var x
go main g1 a.go:1
read g1 x 0 a.go:2
write main x 1 a.go:1
exit g1 a.go:1
`
	if text != want {
		t.Errorf("got\n%s", text)
	}
}

// TestAtomics: what stands for a goroutine's atomic operations has no values, so in another order each read finds its write.
func TestAtomics(t *testing.T) {
	text, _ := written(t, of([]Record{
		{Op: Go, Other: 1, Site: 1},
		{Op: Write, Object: 1, Goroutine: 1, Site: 1},
		{Op: Read, Object: 1, Site: 2},
	}, Object{Kind: Atomic, Site: 1, By: 1}))
	want := `gotrace 1
goroutine g1
var x_atomic_g1
go main g1 a.go:1
write g1 x_atomic_g1 0 a.go:1
read main x_atomic_g1 0 a.go:2
`
	if text != want {
		t.Errorf("got\n%s", text)
	}
}

// joined are goroutines that each lock, and are waited for before the next one starts.
func joined(n uint32) *Recording {
	records := []Record{{Op: Lock, Object: 1, Site: 3}, {Op: Unlock, Object: 1, Site: 3}}
	objects := []Object{{Kind: Mutex, Site: 3}}
	for g := uint32(1); g <= n; g++ {
		records = append(records,
			Record{Op: Go, Other: g, Site: 1},
			Record{Op: Lock, Object: 1, Goroutine: g, Site: 3},
			Record{Op: Unlock, Object: 1, Goroutine: g, Site: 3},
			Record{Op: Release, Object: 1 + g, Goroutine: g, Site: 1},
			Record{Op: Exit, Goroutine: g, Site: 1},
			Record{Op: Acquire, Object: 1 + g, Site: 1})
		objects = append(objects, Object{Kind: Order, Site: 1})
	}
	return of(records, objects...)
}

func TestNamesAreLentOn(t *testing.T) {
	text, s := written(t, joined(2000))
	if s.Cut != "" {
		t.Errorf("cut off: %s", s.Cut)
	}
	want := "goroutines 2001 of 2001 (2 names), variables 0 of 0, channels 2000 of 2000, locks 1 of 1"
	if got := s.Counts(); !strings.HasSuffix(got, "; "+want) {
		t.Errorf("got %s", got)
	}
	if got := strings.Count(text, "\ngoroutine "); got != 1 {
		t.Errorf("%d goroutines are declared", got)
	}
	if got := len(s.Starts["g1"]); got != 2000 {
		t.Errorf("%d starts of g1", got)
	}
}

func TestTooManyGoroutinesAreCutOff(t *testing.T) {
	r := joined(1100)
	for i := range r.Records {
		if r.Records[i].Op == Acquire { // nothing joins them
			r.Records[i].Op = None
		}
	}
	_, s := written(t, r)
	if !strings.HasPrefix(s.Cut, "more than 1,024 goroutines") || !strings.HasSuffix(s.Cut, "at a.go:3") {
		t.Errorf("cut off: %q", s.Cut)
	}
	if s.Goroutines.Kept != maxGoroutines {
		t.Errorf("%d goroutines", s.Goroutines.Kept)
	}
}

// TestTooManyValuesAreCutOff: a capacity of more than 65,535 is written as that; so that the
// trace is no illegal one, it ends before the send that it has no room for.
func TestTooManyValuesAreCutOff(t *testing.T) {
	for _, c := range []struct {
		capacity uint32
		waiting  int
		cut      string
	}{
		{65535, 65535, ""},
		{100000, 65535, ""},
		{100000, 65536, "more than 65,535 values in a channel, at a.go:2"},
	} {
		records := []Record{
			{Op: Go, Other: 1, Site: 1},
			{Op: Send, Object: 1, Site: 2, Value: 1},
			{Op: Receive, Object: 1, Goroutine: 1, Site: 3, Value: 1},
		}
		for n := 1; n <= c.waiting; n++ {
			records = append(records, Record{Op: Send, Object: 1, Site: 2, Value: uint64(n + 1)})
		}
		records = append(records, Record{Op: Exit, Goroutine: 1, Site: 3})
		text, s := writtenAs(t, Options{Version: 1, All: true}, of(records, Object{Kind: Channel, Site: 1, Capacity: c.capacity}))
		if s.Cut != c.cut || !strings.Contains(text, "\nchan x 65535\n") {
			t.Errorf("%+v: cut off: %q", c, s.Cut)
		}
		if got := strings.Count(text, "\nsend "); got != 65536 {
			t.Errorf("%+v: %d sends", c, got)
		}
	}
}

// TestCounts: orders are counted as channels, and what comes after all accesses as records.
func TestCounts(t *testing.T) {
	const n = 7000
	var orders []Record
	ordered := make([]Object, n)
	for id := uint32(1); id <= n; id++ {
		ordered[id-1] = Object{Kind: Order, Site: 1}
		orders = append(orders, Record{Op: Release, Object: id, Site: 1})
	}
	orders = append(orders, Record{Op: Go, Other: 1, Site: 1})
	for id := uint32(1); id <= n; id++ {
		orders = append(orders, Record{Op: Acquire, Object: id, Goroutine: 1, Site: 1})
	}
	r := of(orders, ordered...)
	r.More, r.Variables = 5, 9
	want := "14001 events of 14006 records; goroutines 2 of 2, variables 0 of 9, channels 7000 of 7000, locks 0 of 0"
	if _, s := written(t, r); s.Counts() != want {
		t.Errorf("got %s", s.Counts())
	}
}

// TestTooManyEventsAreCutOff: a trace has no more than a judge takes.
func TestTooManyEventsAreCutOff(t *testing.T) {
	records := []Record{
		{Op: Go, Other: 1, Site: 1},
		{Op: Write, Object: 1, Goroutine: 1, Site: 1},
		{Op: Write, Object: 1, Site: 2},
	}
	for limit, want := range map[int]string{3: "", 2: "more than 2 events, at a.go:2", 1: "more than 1 events, at a.go:1"} {
		text, s := writtenAs(t, Options{Version: 1, Events: limit}, of(records, x))
		_, events, _ := strings.Cut(text, "\ngo main ")
		if n := strings.Count(events, "\n"); n != limit || s.Events != limit || s.Cut != want {
			t.Errorf("limit %d: %d events, cut off: %q\n%s", limit, n, s.Cut, text)
		}
	}
}

// tries are of two goroutines; what one alone tries, and fails, isn't there in version 1.
var tries = []Record{
	{Op: Go, Other: 1, Site: 1},
	{Op: TryLock, Object: 1, Site: 2},
	{Op: TryFail, Object: 1, Goroutine: 1, Site: 1},
	{Op: Lock, Object: 2, Site: 1},
	{Op: TryFail, Object: 2, Goroutine: 1, Site: 2},
	{Op: Unlock, Object: 2, Site: 1},
	{Op: Unlock, Object: 1, Site: 2},
	{Op: TryReadLock, Object: 1, Goroutine: 1, Site: 1},
	{Op: ReadUnlock, Object: 1, Goroutine: 1, Site: 1},
	{Op: Exit, Goroutine: 1, Site: 1},
}

func TestTries(t *testing.T) {
	for version, want := range map[int]string{
		1: `gotrace 1
goroutine g1
rwmutex mu
go main g1 a.go:1
lock main mu a.go:2
unlock main mu a.go:2
rlock g1 mu a.go:1
runlock g1 mu a.go:1
exit g1 a.go:1
`,
		2: `gotrace 2
goroutine g1
rwmutex mu
mutex x
go main g1 a.go:1
trylock main mu a.go:2
tryfail g1 mu a.go:1
lock main x a.go:1
tryfail g1 x a.go:2
unlock main x a.go:1
unlock main mu a.go:2
tryrlock g1 mu a.go:1
runlock g1 mu a.go:1
exit g1 a.go:1
`,
	} {
		locks := []Object{{Kind: RWMutex, Site: 3}, {Kind: Mutex, Site: 1}}
		if text, _ := writtenAs(t, Options{Version: version}, of(tries, locks...)); text != want {
			t.Errorf("version %d: got\n%s", version, text)
		}
	}
}

// TestNamesAreLentOnByTries: a lock that a try has taken orders as any other, and a try that
// failed doesn't.
func TestNamesAreLentOnByTries(t *testing.T) {
	for op, lent := range map[Op]int{Lock: 1999, TryLock: 1999, TryFail: 0} {
		of := joined(2000)
		var records []Record
		for _, r := range of.Records {
			switch {
			case r.Op == Release || r.Op == Acquire: // the lock alone orders
			case r.Op == Exit:
				records = append(records, r, Record{Op: op, Object: 1, Site: 3})
				if op != TryFail {
					records = append(records, Record{Op: Unlock, Object: 1, Site: 3})
				}
			default:
				records = append(records, r)
			}
		}
		of.Records = records
		text, _ := writtenAs(t, Options{Version: 2}, of)
		if got := strings.Count(text, "\nchan go"); got != lent {
			t.Errorf("%d: %d names are lent on", op, got)
		}
	}
}

func TestNames(t *testing.T) {
	n := names{"main": 1}
	var got []string
	for _, s := range []string{"x", "x", "a.b", "nil", "main", "", "x_2", strings.Repeat("y", 90)} {
		got = append(got, n.take(s))
	}
	want := "[x x_2 a_b nil_ main_ _ x_2_2 " + strings.Repeat("y", longestName) + "]"
	if fmt.Sprint(got) != want {
		t.Errorf("got %v", got)
	}
}

// What code without the recorder starts for a goroutine may begin after its exit.
func TestAStartBehindAnExit(t *testing.T) {
	text, _ := written(t, of([]Record{
		{Op: Go, Other: 1, Site: 1},
		{Op: Write, Object: 1, Goroutine: 1, Site: 1},
		{Op: Exit, Goroutine: 1, Site: 1},
		{Op: Go, Kind: uint8(GoForeign), Goroutine: 1, Other: 2},
		{Op: Write, Object: 1, Goroutine: 2, Site: 2},
		{Op: Exit, Goroutine: 2, Site: 1},
	}, x))
	want := `gotrace 1
goroutine g1
var x
goroutine g2
go main g1 a.go:1
write g1 x 1 a.go:1
go g1 g2 -
write g2 x 2 a.go:2
exit g2 a.go:1
`
	if text != want {
		t.Errorf("got\n%s", text)
	}
}

// TestADefault: of its cases those on channels of several goroutines stand in the trace.
func TestADefault(t *testing.T) {
	channel := Object{Kind: Channel, Site: 1}
	for _, c := range []struct {
		cases []Record
		want  string
	}{
		{nil, ""},
		{[]Record{{Op: Case, Object: 2}}, ""},
		{[]Record{{Op: Case, Object: 1}}, "default main recv:x a.go:3\n"},
		{[]Record{{Op: Case, Object: 1}, {Op: Case, Object: 2}, {Op: Case, Object: 1, Kind: IsSend}, {Op: Case}},
			"default main recv:x,send:x,recv:nil a.go:3\n"},
	} {
		records := append([]Record{
			{Op: Go, Other: 1, Site: 1},
			{Op: Close, Object: 1, Goroutine: 1, Site: 2},
			{Op: Default, Count: uint16(len(c.cases)), Site: 3},
		}, c.cases...)
		text, _ := writtenAs(t, Options{Version: 2}, of(records, channel, channel))
		if _, last, _ := strings.Cut(text, "close g1 x a.go:2\n"); last != c.want {
			t.Errorf("%v:\n%s", c.cases, text)
		}
	}
}

// TestManyGoroutinesAtOnce: of three thousand goroutines that each write a variable, and that nothing joins, a trace has as many
// as there are names; who did nothing up to there has none.
func TestManyGoroutinesAtOnce(t *testing.T) {
	var records []Record
	for g := uint32(1); g <= 3000; g++ {
		records = append(records, Record{Op: Go, Other: g, Site: 1})
	}
	for g := uint32(1); g <= 3000; g++ {
		records = append(records, Record{Op: Write, Object: 1, Goroutine: g, Site: 2}, Record{Op: Exit, Goroutine: g})
	}
	trace := New(of(records, x), Options{Version: 1})
	if want := 3000 + 2*1023; trace.End() != want {
		t.Errorf("the trace has %d records, not %d", trace.End(), want)
	}
	var b strings.Builder
	if _, err := trace.Write(&b); err != nil {
		t.Fatal(err)
	}
	if writes, goes := strings.Count(b.String(), "\nwrite "), strings.Count(b.String(), "\ngo "); writes != 1023 || goes != 1023 {
		t.Errorf("%d writes, %d goes", writes, goes)
	}
}

// TestTooMany: a trace ends before the variable, the channel or the order that it has no name for.
func TestTooMany(t *testing.T) {
	const n = maxKind + 1
	for kind, what := range map[ObjectKind]string{Variable: "variables", Order: "channels", RWMutex: "locks", Once: "onces"} {
		first, second := Write, Read
		if kind != Variable {
			first, second = Release, Acquire // whatever it is
		}
		records, objects := []Record{{Op: Go, Other: 1, Site: 1}}, make([]Object, n)
		for id := uint32(1); id <= n; id++ {
			objects[id-1] = Object{Kind: kind, Site: 1}
			records = append(records, Record{Op: first, Object: id, Site: 2}, Record{Op: second, Object: id, Goroutine: 1, Site: 2})
		}
		_, s := written(t, of(records, objects...))
		if s.Records != len(records)-2 || s.Cut != "more than 65,535 "+what+", at a.go:2" {
			t.Errorf("%d of %d records, cut off: %q", s.Records, len(records), s.Cut)
		}
	}
}
