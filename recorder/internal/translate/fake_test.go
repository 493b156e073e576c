package translate

import (
	"path/filepath"
	"strings"
	"testing"

	"gorace.local/recorder/internal/hooklog"
	"gorace.local/recorder/internal/hooklog/testdata/hooklogtest"
	"gorace.local/recorder/internal/symbols"
)

const root = "/usr/lib/go"

// program is one that never ran: a test writes its log.
type program struct {
	t      testing.TB
	w      *hooklogtest.Writer
	r      *hooklog.Reader
	f      *follower
	frames map[uint64][]symbols.Frame
	sites  map[string]uint32
	names  map[uint64]string // of what is at an address
	begins map[uint64]uint64 // of values of several words
	main   *hooklogtest.Goroutine
}

func newProgram(t testing.TB, o Options) *program {
	return newProgramOf(t, 1<<12, o)
}

func newProgramOf(t testing.TB, chunks int, o Options) *program {
	t.Helper()
	path := filepath.Join(t.TempDir(), "log")
	if err := hooklog.Create(path, chunks, true); err != nil {
		t.Fatal(err)
	}
	w, err := hooklogtest.Open(path)
	if err != nil {
		t.Fatal(err)
	}
	r, err := hooklog.Open(path)
	if err != nil {
		t.Fatal(err)
	}
	t.Cleanup(func() { w.Close(); r.Close() })
	p := &program{t: t, w: w, r: r, frames: map[uint64][]symbols.Frame{}, sites: map[string]uint32{},
		names: map[uint64]string{}, begins: map[uint64]uint64{}}
	o.Base, o.GOROOT, o.Namer, o.Trace.Version = "/home/p", root, p, 2
	p.f = follow(r, p, o)
	p.main = w.Goroutine(1)
	return p
}

func (p *program) Frames(ret uint64) []symbols.Frame { return p.frames[ret] }

func (p *program) IsStandard(f symbols.Frame) bool { return strings.HasPrefix(f.File, root+"/src/") }

func (p *program) Variable(addr uint64, object *Heap, uses []Use) (string, uint64) {
	return p.names[addr], p.begins[addr]
}

func (p *program) Size(typ uint64) uint64 { return typ }

func (p *program) Object(kind Kind, addr uint64, object *Heap, frames []symbols.Frame) string {
	return p.names[addr]
}

// at is the site of line of main.go, called by functions of the library, the innermost first.
func (p *program) at(line int, library ...string) uint32 {
	key := strings.Join(library, " ") + "@" + string(rune(line))
	if s := p.sites[key]; s != 0 {
		return s
	}
	id := uint32(len(p.sites) + 1)
	p.sites[key] = id
	var addresses []uint64
	add := func(f symbols.Frame) {
		ret := 0x400000 + uint64(len(p.frames)+1)
		p.frames[ret] = []symbols.Frame{f}
		addresses = append(addresses, ret)
	}
	for i, name := range library {
		add(symbols.Frame{Function: name, File: root + "/src/lib/lib.go", Line: 100 + i})
	}
	if line > 0 {
		add(symbols.Frame{Function: "main.f", File: "/home/p/main.go", Line: line})
	}
	p.w.Site(id, addresses...)
	return id
}

// texts are the traces of the segments, as far as they are there.
func (p *program) texts(ended bool) (texts []string) {
	p.t.Helper()
	for {
		s, err := p.f.next(ended)
		if err != nil {
			p.t.Fatal(err)
		}
		if s == nil {
			return texts
		}
		texts = append(texts, p.text(s))
	}
}

// text is the trace of a segment.
func (p *program) text(s *Segment) string {
	p.t.Helper()
	p.f.Name(s)
	var b strings.Builder
	if _, err := s.Trace.Write(&b); err != nil {
		p.t.Fatal(err)
	}
	return b.String()
}

// want compares the traces of the segments with what they should be.
func (p *program) want(wanted ...string) {
	p.t.Helper()
	got := p.texts(true)
	for i := range got {
		if i >= len(wanted) || got[i] != strings.TrimPrefix(wanted[i], "\n") {
			p.t.Errorf("segment %d is\n%s", i, got[i])
		}
	}
	if len(got) != len(wanted) {
		p.t.Errorf("%d segments", len(got))
	}
}

// follower makes segments of a log, while it is written.
type follower struct {
	*Translator
	log  *hooklog.Reader
	over bool
}

func follow(log *hooklog.Reader, s Symbols, o Options) *follower {
	return &follower{Translator: New(s, log, o), log: log}
}

// atOnce is how many records are read before it is asked whether they are enough.
const atOnce = 1 << 14

// next is the next segment, or nil if there isn't enough for one yet. ended says that nobody writes any more; then what is
// left is the last segment, and no other follows.
func (f *follower) next(ended bool) (*Segment, error) {
	for !f.over {
		if f.IsReady() {
			s := f.Segment(false)
			f.log.SetSegment(f.segments)
			return s, nil
		}
		n, err := f.log.Read(f.Translator, atOnce)
		if err != nil {
			return nil, err
		}
		if n > 0 || !f.log.Whole() {
			continue
		}
		if !ended {
			return nil, nil
		}
		s := f.Segment(true)
		f.over = s.Last
		return s, nil
	}
	return nil, nil
}
