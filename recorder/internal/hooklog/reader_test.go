package hooklog_test

import (
	"fmt"
	"os"
	"path/filepath"
	"reflect"
	"testing"
	"time"

	"gorace.local/recorder/internal/hooklog"
	"gorace.local/recorder/internal/hooklog/testdata/hooklogtest"
)

// told is what a Reader tells, as text.
type told []string

func (t *told) Take(goroutine, stint uint32, words []uint64) {
	*t = append(*t, fmt.Sprintf("g%d.%d:%d", goroutine, stint, len(words)/2))
}

// counting counts the first words of records.
type counting struct{ units, words int }

func (c *counting) Take(_, _ uint32, words []uint64) {
	c.units++
	c.words += len(words)
}

func newLog(t testing.TB, chunks int, reader bool) (*hooklogtest.Writer, *hooklog.Reader) {
	t.Helper()
	return newLogAt(t, filepath.Join(t.TempDir(), "log"), chunks, reader)
}

func newLogAt(t testing.TB, path string, chunks int, reader bool) (*hooklogtest.Writer, *hooklog.Reader) {
	t.Helper()
	if err := hooklog.Create(path, chunks, reader); err != nil {
		t.Fatal(err)
	}
	w, err := hooklogtest.Open(path)
	if err != nil {
		t.Fatal(err)
	}
	r, err := hooklog.Open(path)
	if err != nil {
		t.Fatal(err)
	}
	t.Cleanup(func() { w.Close(); r.Close() })
	return w, r
}

func read(t testing.TB, r *hooklog.Reader, to hooklog.Sink, most int) int {
	t.Helper()
	n, err := r.Read(to, most)
	if err != nil {
		t.Fatal(err)
	}
	return n
}

// What was read isn't read again, and what follows is, in its goroutine's name.
func TestReadAlong(t *testing.T) {
	w, r := newLog(t, 8, true)
	main, other := w.Goroutine(1), w.Goroutine(2)
	main.Do(hooklog.Lock, 0x1000, 5)
	var got told
	read(t, r, &got, 1000)
	main.Do(hooklog.Unlock, 0x1000, 5)
	other.Write(0x2000, 6)
	read(t, r, &got, 1000)
	main.Leave(other)
	other.Write(0x2008, 7)
	other.Label("TestOfSixteen...17")
	read(t, r, &got, 1000)
	read(t, r, &got, 1000)
	if want := (told{"g1.1:2", "g1.1:2", "g2.1:2", "g2.2:5"}); !reflect.DeepEqual(got, want) {
		t.Errorf("got %v", got)
	}
	if !r.Whole() {
		t.Error("it isn't whole")
	}
}

// A program may write as much as it wants, as long as chunks are given back.
func TestChunksGoRound(t *testing.T) {
	w, r := newLog(t, 4, true)
	g := w.Goroutine(1)
	var c counting
	const n = 100 * 63
	for i := 0; i < n; i++ {
		g.Do(hooklog.Lock, 0x1000, 5)
		if i%63 == 62 {
			read(t, r, &c, 1000)
		}
	}
	read(t, r, &c, 1000)
	if c.words != 4*n {
		t.Errorf("%d words of %d", c.words, 4*n)
	}
	if h := r.Header(); h.Announced != 100 || h.Freed < 98 {
		t.Errorf("%d of %d chunks were given back", h.Freed, h.Announced)
	}
}

// Without a reader nothing is given back, and what is there can be read again.
func TestReadTwice(t *testing.T) {
	path := filepath.Join(t.TempDir(), "log")
	w, r := newLogAt(t, path, 4, false)
	g := w.Goroutine(1)
	for i := 0; i < 4*63; i++ {
		g.Do(hooklog.Lock, 0x1000, 5)
	}
	var c counting
	read(t, r, &c, 1000)
	again, err := hooklog.Open(path)
	if err != nil {
		t.Fatal(err)
	}
	defer again.Close()
	var d counting
	read(t, again, &d, 1000)
	if c != d || c.words != 4*4*63 || r.Header().Freed != 0 {
		t.Errorf("%v, then %v", c, d)
	}
}

// A Read stops after so many records, and the next one goes on there.
func TestReadStops(t *testing.T) {
	w, r := newLog(t, 64, true)
	for id := uint32(1); id <= 20; id++ {
		g := w.Goroutine(id)
		for i := 0; i < 60; i++ {
			g.Do(hooklog.Lock, 0x1000, 5)
		}
	}
	var c counting
	for total := 0; total < 20*60; {
		n := read(t, r, &c, 100)
		if n < 100 && !r.Whole() || n > 100+60 {
			t.Fatalf("%d records", n)
		}
		total += n
	}
	if c.words != 4*20*60 {
		t.Errorf("%d words", c.words)
	}
}

// An access of many words counts as so many, and what is after it in its chunk is read next.
func TestReadStopsWithinAChunk(t *testing.T) {
	w, r := newLog(t, 64, true)
	g, other := w.Goroutine(1), w.Goroutine(2)
	for i := 0; i < 10; i++ {
		g.Access(hooklog.Write, 0x2000, 0xff, 0, 1000, 7)
	}
	other.Do(hooklog.Lock, 0x1000, 5)
	var got told
	for i := 0; i < 5; i++ {
		if n := read(t, r, &got, 3000); n != 3000 && i < 3 || r.Whole() != (i >= 3) {
			t.Errorf("%d records, whole: %t", n, r.Whole())
		}
	}
	if want := (told{"g1.1:3", "g1.1:3", "g1.1:3", "g1.1:1", "g2.1:2"}); !reflect.DeepEqual(got, want) {
		t.Errorf("got %v", got)
	}
}

// The stack of a site is there once its number is.
func TestStacks(t *testing.T) {
	w, r := newLog(t, 4, true)
	w.Site(7, 0x400100, 0x400200)
	if got := r.Stack(7); !reflect.DeepEqual(got, []uint64{0x400100, 0x400200}) {
		t.Errorf("got %#x", got)
	}
	w.Site(9, 0x400300)
	if got := r.Stack(9); len(got) != 1 || got[0] != 0x400300 || r.Stack(8) != nil || r.Stack(0) != nil {
		t.Errorf("got %#x", got)
	}
}

// A file that is cut off is an error, and nothing worse.
func TestACutFile(t *testing.T) {
	path := filepath.Join(t.TempDir(), "log")
	w, r := newLogAt(t, path, 4, true)
	w.Goroutine(1).Do(hooklog.Lock, 0x1000, 5)
	if err := os.Truncate(path, 4096*3); err != nil {
		t.Fatal(err)
	}
	if _, err := r.Read(&counting{}, 10); err == nil {
		t.Error("no error")
	}
}

func TestNoLog(t *testing.T) {
	path := filepath.Join(t.TempDir(), "log")
	if err := os.WriteFile(path, make([]byte, 5000), 0o644); err != nil {
		t.Fatal(err)
	}
	if _, err := hooklog.Open(path); err == nil {
		t.Error("no error")
	}
	if _, err := hooklog.Open(path + "none"); err == nil {
		t.Error("no error of one that isn't there")
	}
}

// A log in memory is found by its link, and is gone with its reader.
func TestInMemory(t *testing.T) {
	path := filepath.Join(t.TempDir(), "log")
	r, err := hooklog.CreateInMemory(path)
	if err != nil {
		t.Fatal(err)
	}
	w, err := hooklogtest.Open(path)
	if err != nil {
		t.Fatal(err)
	}
	defer w.Close()
	w.Goroutine(1).Do(hooklog.Lock, 0x1000, 5)
	var c counting
	if read(t, r, &c, 10); c.words != 4 {
		t.Errorf("%d words", c.words)
	}
	if err := r.Close(); err != nil {
		t.Fatal(err)
	}
	if _, err := hooklog.Open(path); err == nil {
		t.Error("the log is still there")
	}
}

// Who may not write a log may read it.
func TestReadOnly(t *testing.T) {
	path := filepath.Join(t.TempDir(), "log")
	w, _ := newLogAt(t, path, 4, true)
	w.Goroutine(1).Do(hooklog.Lock, 0x1000, 5)
	if err := os.Chmod(path, 0o444); err != nil {
		t.Fatal(err)
	}
	other, err := hooklog.Open(path)
	if err != nil {
		t.Fatal(err)
	}
	defer other.Close()
	var c counting
	if read(t, other, &c, 10); c.words != 4 {
		t.Errorf("%d words", c.words)
	}
}

// A program that waits for chunks which nobody can give back is told to stop.
func TestStuck(t *testing.T) {
	w, r := newLog(t, 4, true)
	for id := uint32(1); id <= 4; id++ {
		w.Goroutine(id).Do(hooklog.Lock, 0x1000, 5)
	}
	var c counting
	begin := time.Now()
	for r.Header().Stop == 0 {
		read(t, r, &c, 10)
		if time.Since(begin) > 20*time.Second {
			t.Fatal("it isn't")
		}
		time.Sleep(50 * time.Millisecond)
	}
	if time.Since(begin) < time.Second {
		t.Error("it is at once")
	}
}
