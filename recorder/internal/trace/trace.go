// Package trace writes traces of what was recorded.
//
// New finds out what a trace has of a recording (survey.go), which goroutines have names (lend.go), and what is declared, up to
// where a limit is reached (declare.go). Write writes it (write.go), and Moments tell more of events that race (moments.go).
package trace

import (
	"fmt"
	"strconv"
	"strings"
)

// Newest is the newest version of a trace.
const Newest = 2

// The limits of a trace (docs/FORMATS.md).
const (
	maxGoroutines = 1024
	maxKind       = 65535
	maxEvents     = 1 << 24
)

// Options are what is asked of a trace.
type Options struct {
	Version int  // of its text
	All     bool // what one goroutine alone does isn't left out
	Predict bool // races of other orders are to be looked for, so the trace says what each goroutine goes by

	Goroutines int // names of goroutines at most, 0 for as many as a trace may have
	Events     int // at most so many, 0 for as many as a trace may have
}

// hasTries reports whether the version has words for TryLock and TryRLock, with and without success.
func (o *Options) hasTries() bool { return o.Version >= 2 }

// A Trace is the trace of a recording, up to where a limit is reached.
type Trace struct {
	*Recording
	Options
	objects    []object
	goroutines []goroutine
	events     []uint8 // of each record: so many does it become
	living     int     // goroutines that are alive

	names  names
	text   strings.Builder // the declarations
	counts map[string]int  // of these
	kept   int             // goroutines that are declared
	lent   int             // of these, that are lent a name
	end    int             // the record at which the trace is cut off
	cut    string          // why
}

// New makes the trace of a recording. What one goroutine alone does with a channel, a lock or a once is left out, unless all is
// wanted.
func New(of *Recording, o Options) *Trace {
	if o.Goroutines == 0 {
		o.Goroutines = maxGoroutines
	}
	if o.Events == 0 || o.Events > maxEvents {
		o.Events = maxEvents
	}
	t := &Trace{Recording: of, Options: o, end: len(of.Records)}
	t.objects, t.events = make([]object, len(of.Objects)), make([]uint8, len(of.Records))
	t.goroutines = make([]goroutine, 1)
	t.survey()
	t.findAlive()
	t.lend()
	t.declare()
	return t
}

// End is how many of the recording's records the trace has: all up to a limit.
func (t *Trace) End() int { return t.end }

// Cut is why the trace ends there, "" where it has all records.
func (t *Trace) Cut() string { return t.cut }

// Start is where a goroutine was started, before the event that is counted from 1. By is "" for one that was started before
// the segment.
type Start struct {
	By, Place string // no place where code that isn't recorded started it, on behalf of By
	Event     int
	Stack     uint32 // the number of the calls that led there, 0 for none known
}

// Count is how many of what was met are in a trace.
type Count struct{ Kept, Met int }

// Summary is what is known of a trace beside it.
type Summary struct {
	Records, Events                        int
	Goroutines, Variables, Channels, Locks Count
	Names                                  int                // of the goroutines in the trace
	Starts                                 map[string][]Start // by the goroutine's name
	Cut                                    string             // why the trace is cut off, and where
}

// summary counts what was met, and which of it has a name in the trace. Among the channels are the orders, as of a Done before
// a Wait.
func (t *Trace) summary() *Summary {
	s := &Summary{Records: t.end, Starts: map[string][]Start{}, Cut: t.cut}
	if t.end < len(t.Records) {
		s.Cut += ", at " + t.Sites[t.Records[t.end].Site].Place
	} else {
		s.Records += t.More
	}
	s.Goroutines = Count{t.kept + 1, len(t.goroutines)}
	s.Names = s.Goroutines.Kept - t.lent
	for id := range t.objects {
		c := &s.Channels
		switch kind := t.Objects[id].Kind; {
		case kind == Once || id == 0:
			continue
		case kind.IsVariable():
			c = &s.Variables
		case kind == Mutex || kind == RWMutex:
			c = &s.Locks
		}
		if o := &t.objects[id]; o.user != 0 {
			c.Met++
			if o.name != "" {
				c.Kept++
			}
		}
	}
	if s.Variables.Met < t.Variables {
		s.Variables.Met = t.Variables
	}
	return s
}

// Counts is one line about the trace.
func (s *Summary) Counts() string {
	names := ""
	if s.Names < s.Goroutines.Kept {
		names = fmt.Sprintf(" (%d names)", s.Names)
	}
	return fmt.Sprintf("%d events of %d records; goroutines %d of %d%s, variables %d of %d, channels %d of %d, locks %d of %d",
		s.Events, s.Records, s.Goroutines.Kept, s.Goroutines.Met, names, s.Variables.Kept, s.Variables.Met,
		s.Channels.Kept, s.Channels.Met, s.Locks.Kept, s.Locks.Met)
}

// thousands is a number with commas.
func thousands(n int) string {
	s := strconv.Itoa(n)
	for i := len(s) - 3; i > 0; i -= 3 {
		s = s[:i] + "," + s[i:]
	}
	return s
}
