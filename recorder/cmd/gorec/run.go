package main

import (
	"errors"
	"fmt"
	"os"
	"path/filepath"
	"runtime/debug"
	"sync"
	"sync/atomic"
	"time"

	"gorace.local/recorder/internal/hooklog"
	"gorace.local/recorder/internal/report"
	"gorace.local/recorder/internal/symbols"
	"gorace.local/recorder/internal/trace"
	"gorace.local/recorder/internal/translate"
)

// A verdict is how a run ended.
type verdict struct {
	Package         string `json:",omitempty"` // of gorec test
	Status          int    // as gorec's, of this package alone
	Races           int
	Predicted       int `json:",omitempty"`
	NotSearched     int `json:",omitempty"` // variables, in other orders
	Events, Records int
	Cut             string `json:",omitempty"` // why the trace is cut off, and where
	Ended           string `json:",omitempty"` // how the program failed
	Seed            string `json:",omitempty"`
	Trace           string `json:",omitempty"` // the file
	Report          string `json:",omitempty"` // where go test doesn't tell it
}

// A run is one of a program, or of a process that it started. The log that the hooks there write is read along meanwhile, and each
// segment is judged while the next one is gathered.
type run struct {
	*session
	verdict
	exit    int // the program's own status, as shells have it
	elapsed time.Duration

	reader     *hooklog.Reader
	mu         sync.Mutex // who judges asks for names and stacks
	symbols    *symbols.Program
	translator *translate.Translator // nil before the program has begun

	trace   string           // the file that the judge reads: of the first segment with a race, or else of the last one
	first   *report.Report   // on that segment, nil while none has a race
	reports []*report.Report // on segments with races at other places than those before, predicted ones too
	told    map[string]bool  // what races at which places

	segments, racing int
	ends             map[string]int // why segments ended that others follow
	noted            time.Time      // when a segment without another race was noted last
}

// newRun makes the run of a log, if that could be opened.
func (s *session) newRun(log *hooklog.Reader, err error) (*run, error) {
	file := filepath.Join(s.keeper.Folder, s.name+".gotrace")
	return &run{session: s, reader: log, trace: file, told: map[string]bool{}, ends: map[string]int{}}, err
}

// close gives back memory.
func (r *run) close() {
	if r.symbols != nil {
		r.symbols.Close()
	}
	r.reader.Close()
}

// What is written is read each tick, and this is longer while nothing is.
const (
	shortTick  = 8 * time.Millisecond
	longTick   = 32 * time.Millisecond
	readAtOnce = 1 << 14 // records
)

// follow has each segment judged, until the program has ended. Where one can't be judged the program goes on without a record.
func (r *run) follow(ended <-chan struct{}) error {
	defer debug.SetGCPercent(debug.SetGCPercent(20)) // the program that runs beside needs memory too
	var judging sync.WaitGroup                       // of one segment, beside what goes on meanwhile
	var failed error
	for ends := 0; ends < 2; { // all is read once more after the end
		n, err := r.read()
		if err == nil && r.isReady() {
			judging.Wait()
			if err = failed; err == nil {
				s := r.segment(false)
				judging.Add(1)
				go func() {
					defer judging.Done()
					failed = r.judgeSegment(s)
					debug.FreeOSMemory()
				}()
			}
		}
		if err != nil {
			r.reader.Stop()
			judging.Wait()
			<-ended
			return err
		}
		tick := longTick
		if n > 0 {
			tick = shortTick
		}
		if r.translator == nil || r.reader.Whole() {
			select {
			case <-ended:
				ends++
			case <-time.After(tick):
			}
		}
	}
	if judging.Wait(); failed != nil {
		return failed
	}
	return r.finish()
}

// finish has the last segment judged, and finds the status: without races it is 0 only if the trace is whole and the program didn't
// fail.
func (r *run) finish() error {
	if r.translator == nil {
		return errors.New("the program left no record: it wasn't built by gorec, or didn't begin")
	}
	for last := false; !last; {
		s := r.segment(true)
		if err := r.judgeSegment(s); err != nil {
			return err
		}
		last = s.Last
	}
	r.tellSegments()
	err := r.judgeChildren()
	switch {
	case r.Status != 0:
	case r.exit != 0:
		r.Status = failed
	case r.Cut != "":
		r.Status = cutOff
	}
	return err
}

// read reads some of what was written.
func (r *run) read() (records int, err error) {
	r.mu.Lock()
	defer r.mu.Unlock()
	if r.translator == nil {
		if r.reader.Taken() == 0 || atomic.LoadUint64(&r.reader.Header().Text) == 0 {
			return 0, nil // places aren't known before the program has said where it lies
		}
		if err := r.prepare(); err != nil {
			return 0, err
		}
	}
	most := readAtOnce
	if r.records > 0 && r.records < most {
		most = r.records
	}
	return r.reader.Read(r.translator, most)
}

// prepare gets ready to translate what the program writes, once it has begun.
func (r *run) prepare() (err error) {
	if r.symbols, err = symbols.Open(r.file); err != nil {
		return err
	}
	r.symbols.Relocate(r.reader.Header().Text)
	base, err := os.Getwd()
	if err != nil {
		return err
	}
	r.translator = translate.New(r.symbols, r.reader, translate.Options{
		Base: base, GOROOT: r.symbols.Root(), Records: r.records, InTurn: r.inTurn, Namer: namer{r.symbols},
		Trace: trace.Options{Version: r.format, All: r.all, Predict: r.predict},
	})
	return nil
}

func (r *run) isReady() bool { return r.translator != nil && r.translator.IsReady() }

// segment makes a segment of what was read.
func (r *run) segment(ended bool) *translate.Segment {
	r.mu.Lock()
	defer r.mu.Unlock()
	s := r.translator.Segment(ended)
	if s.Last {
		s.Cut = r.reader.Full().String()
	}
	if !ended {
		r.reader.SetSegment(uint32(s.Number + 1))
	}
	return s
}

// nameObjects has the objects of a segment have names.
func (r *run) nameObjects(s *translate.Segment) {
	r.mu.Lock()
	defer r.mu.Unlock()
	r.translator.Name(s)
}

// stack is the one with a number.
func (r *run) stack(number uint32) []translate.Call {
	if !r.stacks {
		return nil
	}
	r.mu.Lock()
	defer r.mu.Unlock()
	return r.translator.Stack(number)
}

// createLog makes the log of a run. It lies in memory, and what was read of it is used anew, unless it is to be kept: in the
// file that is named, or in the folder that is.
func (s *session) createLog() (*hooklog.Reader, error) {
	if s.log == "" {
		return hooklog.CreateInMemory(filepath.Join(s.keeper.Folder, s.name+".log"))
	}
	path, err := filepath.Abs(s.log)
	if err != nil {
		return nil, err
	}
	if isFolder(path) {
		path = filepath.Join(path, s.name+".log")
	}
	if err := hooklog.Create(path, 0, false); err != nil {
		return nil, err
	}
	return hooklog.Open(path)
}

// printTrace writes the trace of a log's first segment to standard output, and what is to be known of it to standard error.
func (s *session) printTrace() (int, error) {
	if len(s.rest) != 2 {
		return 0, errors.New("a log and its program have to be named")
	}
	if err := s.check(); err != nil {
		return 0, err
	}
	s.file = s.rest[1]
	r, err := s.newRun(hooklog.Open(s.rest[0]))
	if err != nil {
		return 0, err
	}
	defer r.close()
	for n := 1; (n > 0 || !r.reader.Whole()) && !r.isReady(); {
		if n, err = r.read(); err != nil {
			return 0, err
		}
		if r.translator == nil {
			return 0, fmt.Errorf("%s: no program has written it", s.rest[0])
		}
	}
	segment := r.segment(!r.isReady())
	r.nameObjects(segment)
	summary, err := segment.Trace.Write(os.Stdout)
	if err != nil {
		return 0, err
	}
	if summary.Cut == "" {
		summary.Cut = segment.End + segment.Cut
	}
	fmt.Fprintln(os.Stderr, "gorec: "+summary.Counts())
	tellCut(os.Stderr, summary.Events, summary.Cut)
	return 0, nil
}

// namer names what a program uses by what is known of it.
type namer struct{ program *symbols.Program }

// Variable names a variable by that of its uses which tells its name best.
func (n namer) Variable(addr uint64, h *translate.Heap, uses []translate.Use) (name string, begin uint64) {
	var list []symbols.Access
	for _, u := range uses {
		list = append(list, symbols.Access{Addr: addr, Write: u.Write, Frames: u.Frames, Object: (*symbols.Object)(h)})
	}
	best := n.program.NameOf(list)
	if best.Begin>>3 < addr>>3 {
		begin = best.Begin
	}
	return best.Word, begin
}

// Size is that of a type's values, 0 if it isn't known.
func (n namer) Size(typ uint64) uint64 {
	if t := n.program.TypeAt(typ); t != nil {
		return t.Size
	}
	return 0
}

// Object names what is no variable by what its operation is about.
func (n namer) Object(_ translate.Kind, addr uint64, h *translate.Heap, frames []symbols.Frame) string {
	return n.program.Object(symbols.Access{Addr: addr, Frames: frames, Object: (*symbols.Object)(h)}).Word
}
