// Package translate makes of what the hooks in package runtime wrote (internal/hooklog) recordings that internal/trace writes
// traces of.
//
// A Translator takes the hooks' records as they are read, whatever goroutine's come first (take.go). Steps, which are all that
// orders, have dense numbers. Once there are enough, all steps up to a number become a Segment, with the accesses that
// were done before the next one (segment.go): first it finds the accesses that may matter (accesses.go), and which memory is a
// variable of several goroutines (variables.go), then it translates step after step (steps.go and the files beside), with the
// accesses where they were done. What stood at a segment's begin is found from what happens in it: who unlocks first what
// nobody had locked shows that it was locked. So nothing is kept of what is used no more. What a site is stands in sites.go
// and facts.go, which of the library's orders nobody promises in private.go.
package translate

import (
	"gorace.local/recorder/internal/hooklog"
	"gorace.local/recorder/internal/symbols"
	"gorace.local/recorder/internal/trace"
)

// Symbols tell what the program's addresses are.
type Symbols interface {
	// Frames are the calls that a return address stands for, the innermost first.
	Frames(ret uint64) []symbols.Frame

	// IsStandard reports whether a call is of Go's own source, or of what is made up for the program.
	IsStandard(symbols.Frame) bool
}

// Stacks tell the return addresses of a site, the innermost first.
type Stacks interface {
	Stack(site uint32) []uint64
}

// Options are what a Translator is asked for.
type Options struct {
	Base    string // the folder that places are told from
	GOROOT  string // what stands before src/ in the files of Go's own source
	Records int    // about so many has a segment, 0 for DefaultRecords
	InTurn  bool   // there is only one place for parallel tests
	Namer   Namer  // nil: names are those of kinds
	Trace   trace.Options
}

// DefaultRecords is how many records a segment has, unless it is said.
const DefaultRecords = 1 << 19

// Translator translates the records of a run.
type Translator struct {
	Options
	symbols Symbols
	stacks  Stacks
	places

	store
	actors
	moments
	segmentState
	segments uint32 // so many were made
	attempt  uint32 // so many times one was tried
	aim      int    // so many steps the next one has at most, 0 for all that are there
}

// New answers a Translator for a program. The stacks are asked for once a segment is made.
func New(s Symbols, stacks Stacks, o Options) *Translator {
	if o.Records == 0 {
		o.Records = DefaultRecords
	}
	t := &Translator{Options: o, symbols: s, stacks: stacks}
	t.store.first = 1
	t.moments.base = 1
	t.places.empty()
	return t
}

var _ hooklog.Sink = (*Translator)(nil)
