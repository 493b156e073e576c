// Package hooklogtest writes logs as the hooks do. It is below testdata since only tests import it.
package hooklogtest

import (
	"fmt"
	"os"
	"sync/atomic"

	"gorace.local/recorder/internal/hooklog"
)

// Writer writes a log in place of a program.
type Writer struct {
	*hooklog.Log
	rests [][]uint64 // of chunks, which ended goroutines left
}

// Open maps a log that hooklog.Create made.
func Open(path string) (*Writer, error) {
	f, err := os.OpenFile(path, os.O_RDWR, 0)
	if err != nil {
		return nil, err
	}
	defer f.Close()
	log, err := hooklog.Map(f)
	return &Writer{Log: log}, err
}

// Close unmaps the log.
func (w *Writer) Close() error { return w.Unmap() }

// Site has a site be a stack, whose innermost return address is the first.
func (w *Writer) Site(site uint32, addresses ...uint64) {
	n := uint64(len(addresses))
	at := atomic.AddUint64(&w.Header.Words, n+1) - n - 1
	w.Words[at] = n
	copy(w.Words[at+1:], addresses)
	atomic.StoreUint32(&w.Sites[site], uint32(at+1))
}

// room is what an ended goroutine left of a chunk, or another one.
func (w *Writer) room() []uint64 {
	if n := len(w.rests); n > 0 {
		rest := w.rests[n-1]
		w.rests = w.rests[:n-1]
		return rest
	}
	n, most := w.Header.Announced, w.Header.Chunks
	slot := n
	if n >= most {
		if atomic.LoadUint32(&w.Header.Freed) <= n-most {
			panic(fmt.Sprintf("no chunk is free: %d were handed out", n))
		}
		slot = w.Free[(n-most)%most]
	}
	atomic.StoreUint32(&w.Announce[n%most], slot+1)
	atomic.StoreUint32(&w.Header.Announced, n+1)
	return w.Chunk(slot)
}

// Goroutine writes the records of a goroutine.
type Goroutine struct {
	w     *Writer
	id    uint32
	stint uint64
	rest  []uint64
}

// Goroutine begins with one that has a number.
func (w *Writer) Goroutine(id uint32) *Goroutine {
	if id >= w.Header.Goroutines {
		w.Header.Goroutines = id + 1
	}
	return &Goroutine{w: w, id: id}
}

// ID is the goroutine's number.
func (g *Goroutine) ID() uint32 { return g.id }

// Put writes a record, which is one unit or several.
func (g *Goroutine) Put(words ...uint64) {
	if len(words) > len(g.rest) {
		if len(g.rest) > 0 {
			atomic.StoreUint64(&g.rest[0], uint64(hooklog.Pad))
		}
		g.stint++
		g.rest = g.w.room()
		g.put([]uint64{uint64(hooklog.Switch) | uint64(g.id)<<8, g.stint})
	}
	g.put(words)
}

func (g *Goroutine) put(words []uint64) {
	copy(g.rest[1:], words[1:])
	atomic.StoreUint64(&g.rest[0], words[0])
	g.rest = g.rest[len(words):]
}

// Leave has another goroutine write what is left of the chunk.
func (g *Goroutine) Leave(other *Goroutine) {
	other.rest, g.rest = g.rest, nil
	other.stint++
	other.put([]uint64{uint64(hooklog.Switch) | uint64(other.id)<<8, other.stint})
}

// End ends the goroutine, and leaves what is left of its chunk to others.
func (g *Goroutine) End() {
	g.Step(Step{Op: hooklog.Exit})
	if len(g.rest) >= 16 {
		g.w.rests = append(g.w.rests, g.rest)
	} else if len(g.rest) > 0 {
		atomic.StoreUint64(&g.rest[0], uint64(hooklog.Pad))
	}
	g.rest = nil
}

// Moment begins a moment at a site, after the last step.
func (g *Goroutine) Moment(site uint32) (id uint32) {
	w := g.w.Header
	w.Moments++
	g.MomentOf(g.id, w.Moments, site, w.Seq)
	return w.Moments
}

// MomentOf writes a moment of a goroutine, maybe another one.
func (g *Goroutine) MomentOf(goroutine, id, site uint32, pos uint64) {
	g.Put(uint64(hooklog.Moment)|uint64(site)<<8|uint64(id)<<32, pos|uint64(goroutine)<<40)
}

// Access writes an access of n words, at a moment.
func (g *Goroutine) Access(op hooklog.Op, addr uint64, mask uint8, gen, n uint16, moment uint32) {
	g.Put(uint64(op)|uint64(mask)<<8|addr>>3<<16, uint64(moment)|uint64(gen)<<32|uint64(n)<<48)
}

// Read writes a read of a whole word at a site, now.
func (g *Goroutine) Read(addr uint64, site uint32) {
	g.Access(hooklog.Read, addr, 0xff, 0, 1, g.Moment(site))
}

// Write writes a write of a whole word at a site, now.
func (g *Goroutine) Write(addr uint64, site uint32) {
	g.Access(hooklog.Write, addr, 0xff, 0, 1, g.Moment(site))
}

// Object tells a heap object.
func (g *Goroutine) Object(base, size uint64, typ uint32) {
	g.Put(uint64(hooklog.Object)|base<<16, size, uint64(typ), g.w.Header.Seq)
}

// Label names the goroutine.
func (g *Goroutine) Label(name string) {
	words := make([]uint64, 2+(len(name)+15)/16*2)
	words[0] = uint64(hooklog.Label) | uint64(len(name))<<8
	for i := range name {
		words[2+i/8] |= uint64(name[i]) << (i % 8 * 8)
	}
	g.Put(words...)
}

// Step is a step that is to be written. Its number is the next one, unless it says which.
type Step struct {
	Op    hooklog.Op
	Aux   uint8
	Addr  uint64
	Gen   uint16
	Site  uint32
	Other uint32
	Value uint64
	Seq   uint64

	Element uint64
	Has     bool   // the element counts
	Waits   uint32 // the site of who waits
}

// Step writes a step.
func (g *Goroutine) Step(s Step) uint64 {
	if s.Seq == 0 {
		g.w.Header.Seq++
		s.Seq = g.w.Header.Seq
	}
	words := []uint64{
		uint64(s.Op) | uint64(s.Aux)<<8 | s.Addr<<16, s.Seq | uint64(s.Gen)<<48, uint64(s.Site) | uint64(s.Other)<<24, s.Value,
	}
	switch s.Op {
	case hooklog.Send, hooklog.Receive, hooklog.Meet, hooklog.Edge:
		last := uint64(s.Waits) << 8
		if s.Has {
			last |= 1
		}
		words = append(words, s.Element, last)
	}
	g.Put(words...)
	return s.Seq
}

// Do writes a step about an address at a site.
func (g *Goroutine) Do(op hooklog.Op, addr uint64, site uint32) uint64 {
	return g.Step(Step{Op: op, Addr: addr, Site: site})
}

// Go starts another goroutine.
func (g *Goroutine) Go(id, site uint32) *Goroutine {
	g.Step(Step{Op: hooklog.Go, Other: id, Site: site})
	return g.w.Goroutine(id)
}
