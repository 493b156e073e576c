package hooklog

import (
	"fmt"
	"os"
	"runtime/debug"
	"sync/atomic"
	"time"
)

// Sink takes what a Reader reads.
type Sink interface {
	// Take takes whole records that one goroutine wrote one after another, in its stint of that number. The words are
	// the log's, and may be used again afterwards.
	Take(goroutine, stint uint32, words []uint64)
}

// Reader reads a log, also while it is written. Only one goroutine may use it at a time.
type Reader struct {
	file  *os.File
	path  string
	log   *Log
	stack []uint64

	next   uint32 // the first chunk that wasn't begun
	end    uint32 // this pass goes up to there, lest it never ends while much is written
	open   []openChunk
	cursor int  // the next one of these
	whole  bool // no pass is begun
	passed int  // records of this pass

	reuses bool      // chunks are given back
	done   []uint32  // those that were read to their end, and aren't yet
	stuck  time.Time // since when the program waits for chunks that nobody can give back
}

// openChunk is one that may still be written.
type openChunk struct {
	slot             uint32
	at               int // the next word
	goroutine, stint uint32
}

// Open maps a log into memory.
func Open(path string) (*Reader, error) {
	f, err := os.OpenFile(path, os.O_RDWR, 0)
	if os.IsPermission(err) {
		f, err = os.Open(path)
	}
	if err != nil {
		return nil, err
	}
	return openFile(f, path)
}

// openFile maps a log that is open.
func openFile(f *os.File, path string) (*Reader, error) {
	log, err := Map(f)
	if err != nil {
		f.Close()
		return nil, fmt.Errorf("%s: %w", path, err)
	}
	return &Reader{file: f, path: path, log: log, whole: true, reuses: log.Header.Reader != 0 && log.writable}, nil
}

// Close gives back the memory.
func (r *Reader) Close() error {
	r.log.Unmap()
	return r.file.Close()
}

// Path is that of the log, or of the link to it.
func (r *Reader) Path() string { return r.path }

// Header is the log's first page.
func (r *Reader) Header() *Header { return r.log.Header }

// Taken is the process that writes the log, 0 before it starts.
func (r *Reader) Taken() uint32 { return atomic.LoadUint32(&r.log.Header.Taken) }

// Full says why recording stopped.
func (r *Reader) Full() Fullness { return Fullness(atomic.LoadUint32(&r.log.Header.Full)) }

// SetSegment says which segment is gathered from now on.
func (r *Reader) SetSegment(n uint32) { r.set(&r.log.Header.Segment, n) }

// SetSeed asks for extra switches of goroutines. It has to be called before the program starts.
func (r *Reader) SetSeed(seed uint32) { r.set(&r.log.Header.Seed, seed) }

// Stop says that no more is wanted.
func (r *Reader) Stop() { r.set(&r.log.Header.Stop, 1) }

func (r *Reader) set(word *uint32, value uint32) {
	if r.log.writable {
		atomic.StoreUint32(word, value)
	}
}

// Stack are the return addresses of a site, the innermost first; none where it has none, as 0. They are there until the next call.
func (r *Reader) Stack(site uint32) []uint64 {
	r.stack = r.stack[:0]
	err := guard(func() {
		if at := atomic.LoadUint32(&r.log.Sites[site&(1<<SiteBits-1)]); at != 0 {
			r.stack = append(r.stack, r.log.Words[at:][:r.log.Words[at-1]]...)
		}
	})
	if err != nil || len(r.stack) == 0 {
		return nil
	}
	return r.stack
}

// Whole reports whether the last Read has come to the end of what was there when it began.
func (r *Reader) Whole() bool { return r.whole }

// fewestBack is how many chunks are given back at once, unless a pass ends.
const fewestBack = 256

// Read reads some of what wasn't read yet: about as many records as are wanted at most, where one of many words counts as so
// many. It goes from chunk to chunk in the order in which these were handed out, and begins anew once it has come to the end
// of the last one.
func (r *Reader) Read(to Sink, most int) (read int, err error) {
	if r.whole {
		r.whole, r.end, r.passed = false, atomic.LoadUint32(&r.log.Header.Announced), 0
	}
	err = guard(func() {
		for o := r.current(); o != nil && read < most; o = r.current() {
			read += r.readChunk(o, to, most-read)
			isDone := o.at == chunkWords
			if isDone || read < most { // else there was too much to read at once
				r.cursor++
			}
			if isDone && r.reuses {
				r.done = append(r.done, o.slot)
			}
			if len(r.done) >= fewestBack {
				r.giveBack()
			}
		}
		if r.passed += read; read < most {
			r.finish()
		}
	})
	return read, err
}

// current is the chunk that is read next, nil at the end of a pass.
func (r *Reader) current() *openChunk {
	if r.cursor < len(r.open) {
		return &r.open[r.cursor]
	}
	if r.next == r.end {
		return nil
	}
	entry := r.log.Announce[r.next%r.log.Header.Chunks]
	r.next++
	r.open = append(r.open, openChunk{slot: entry - 1})
	return &r.open[r.cursor]
}

// readChunk hands on what a chunk has now, up to so many records.
func (r *Reader) readChunk(o *openChunk, to Sink, most int) (read int) {
	chunk := r.log.Chunk(o.slot)
	for from := o.at; ; {
		first := uint64(Nothing)
		if o.at < chunkWords && read < most {
			first = atomic.LoadUint64(&chunk[o.at])
		}
		op, end := Op(first), o.at+2*units(first)
		if op > Switch && op < Pad && end <= chunkWords {
			read += weight(chunk[o.at:end])
			o.at = end
			continue
		}
		if from < o.at {
			to.Take(o.goroutine, o.stint, chunk[from:o.at])
		}
		switch op {
		case Nothing:
			return read
		case Switch:
			o.goroutine, o.stint = uint32(first>>8)&(1<<24-1), uint32(chunk[o.at+1])
			o.at = end
		default:
			o.at = chunkWords
		}
		from = o.at
	}
}

// weight is what a record counts as.
func weight(words []uint64) int {
	if op := Op(words[0]); op == Read || op == Write {
		if n := int(words[1] >> 48); n > 1 {
			return n
		}
	}
	return 1
}

// finish ends a pass: chunks that are done are closed.
func (r *Reader) finish() {
	left := r.open[:0]
	for _, o := range r.open {
		if o.at < chunkWords {
			left = append(left, o)
		}
	}
	r.open, r.cursor, r.whole = left, 0, true
	r.watch()
	r.giveBack()
}

// giveBack empties chunks, and gives them back.
func (r *Reader) giveBack() {
	for _, slot := range r.done {
		chunk := r.log.Chunk(slot)
		for i := range chunk {
			chunk[i] = 0
		}
		freed := atomic.LoadUint32(&r.log.Header.Freed)
		atomic.StoreUint32(&r.log.Free[freed%r.log.Header.Chunks], slot)
		atomic.StoreUint32(&r.log.Header.Freed, freed+1)
	}
	r.done = r.done[:0]
}

// longestWait is how long a program may wait for a chunk that nobody can give back.
const longestWait = 2 * time.Second

// watch has a program stop that waits for ever: all chunks are partly written, by goroutines that wait themselves.
func (r *Reader) watch() {
	out := atomic.LoadUint32(&r.log.Header.Announced) - atomic.LoadUint32(&r.log.Header.Freed)
	switch {
	case r.passed > 0 || out < r.log.Header.Chunks || !r.reuses:
		r.stuck = time.Time{}
	case r.stuck.IsZero():
		r.stuck = time.Now()
	case time.Since(r.stuck) > longestWait:
		r.Stop()
	}
}

// guard answers an error where f meets memory of a file that isn't there, as where the file was cut off.
func guard(f func()) (err error) {
	defer debug.SetPanicOnFault(debug.SetPanicOnFault(true))
	defer func() {
		switch e := recover().(type) {
		case nil:
		case interface{ Addr() uintptr }:
			err = fmt.Errorf("the log can't be read at %#x", e.Addr())
		default:
			panic(e)
		}
	}()
	f()
	return nil
}
