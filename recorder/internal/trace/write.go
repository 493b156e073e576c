package trace

import (
	"bufio"
	"fmt"
	"io"
	"strconv"
	"strings"
)

// printer writes the events.
type printer struct {
	*Trace
	out     *bufio.Writer
	summary *Summary
	writes  []uint32 // of variables, so far
	line    []byte
}

// Write writes the trace: header, declarations, events.
func (t *Trace) Write(out io.Writer) (*Summary, error) {
	p := &printer{Trace: t, out: bufio.NewWriterSize(out, 1<<18), summary: t.summary(), writes: make([]uint32, len(t.objects))}
	fmt.Fprintf(p.out, "gotrace %d\n%s", t.Version, t.text.String())
	for i, events := range t.events[:t.end] {
		if events > 0 {
			p.print(i)
		}
	}
	return p.summary, p.out.Flush()
}

// print writes the events of a record.
func (p *printer) print(i int) {
	r := &p.Records[i]
	switch r.Op {
	case Go:
		p.start(r)
	case Exit:
		p.event("exit", r, "")
	case Default:
		p.event("default", r, p.casesOf(i))
	case Read, Write:
		p.access(r)
	case Send, Receive, Meet:
		p.event(words[r.Op], r, p.objects[r.Object].name, r.Value)
	default:
		p.event(p.word(r.Op), r, p.objects[r.Object].name)
	}
}

// word is that of an event. In version 1 a TryLock that succeeded is a lock.
func (p *printer) word(op Op) string {
	if !p.hasTries() {
		switch op {
		case TryLock:
			op = Lock
		case TryReadLock:
			op = ReadLock
		}
	}
	return words[op]
}

// access writes an access. The writes of a variable are numbered, so that each read finds the last one; but for those that stand
// for atomic operations.
func (p *printer) access(r *Record) {
	name, n := p.objects[r.Object].name, &p.writes[r.Object]
	if p.isChange(r) {
		p.event("read", r, name, uint64(*n))
	}
	if r.Op == Write && p.Objects[r.Object].Kind != Atomic {
		*n++
	}
	p.event(words[r.Op], r, name, uint64(*n))
}

// start writes a go; of a goroutine with another's name, that its go comes before it.
func (p *printer) start(r *Record) {
	child := &p.goroutines[r.Other]
	if child.begin != "" {
		p.event("close", r, child.begin)
		p.event("recvclosed", &Record{Op: ReceiveClosed, Goroutine: r.Other, Site: r.Site}, child.begin)
	} else {
		p.event("go", r, child.name)
	}
	s := Start{By: p.goroutines[r.Goroutine].name, Place: p.Sites[r.Site].Place, Event: p.summary.Events, Stack: r.OtherSite}
	switch GoKind(r.Kind) {
	case GoForeign:
		s.Place = ""
	case GoEarlier:
		s.By = ""
	}
	p.summary.Starts[child.name] = append(p.summary.Starts[child.name], s)
}

// casesOf are those of a default.
func (p *printer) casesOf(i int) string {
	var cases []string
	for _, c := range p.keptCases(i) {
		direction, name := "recv:", "nil"
		if c.Kind == IsSend {
			direction = "send:"
		}
		if c.Object != 0 {
			name = p.objects[c.Object].name
		}
		cases = append(cases, direction+name)
	}
	return strings.Join(cases, ",")
}

// event writes an event: a word, its goroutines, what it is about, a value if it has one, and its places.
func (p *printer) event(word string, r *Record, what string, values ...uint64) {
	p.summary.Events++
	p.line = append(p.line[:0], word...)
	p.add(p.goroutines[r.Goroutine].name)
	if r.Op == Meet {
		p.add(p.goroutines[r.Other].name)
	}
	if what != "" {
		p.add(what)
	}
	for _, value := range values {
		p.line = strconv.AppendUint(append(p.line, ' '), value, 10)
	}
	p.add(p.Sites[r.Site].Place)
	if r.Op == Meet {
		p.add(p.Sites[r.OtherSite].Place)
	}
	p.out.Write(append(p.line, '\n'))
}

// add adds a word to the line.
func (p *printer) add(word string) { p.line = append(append(p.line, ' '), word...) }
