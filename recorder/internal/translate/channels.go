package translate

import (
	"gorace.local/recorder/internal/hooklog"
	"gorace.local/recorder/internal/trace"
)

// channel is one of the program's, up to where another one is found in its memory.
type channel struct {
	id             uint32
	capacity       uint32
	closed         bool
	sent, received uint64         // with what was there at the beginning
	buffer         []waitingValue // from head on
	head           int
}

// waitingValue is one in a channel's buffer.
type waitingValue struct {
	element
	begin uint32 // of one that was there at the beginning: one more than where the state has it
}

// waiting is how many values a channel's buffer has.
func (c *channel) waiting() uint64 { return c.sent - c.received }

// take takes the first value out of a channel's buffer.
func (c *channel) take() waitingValue {
	v := c.buffer[c.head]
	if c.head++; 2*c.head >= len(c.buffer) {
		c.buffer, c.head = c.buffer[:copy(c.buffer, c.buffer[c.head:])], 0
	}
	return v
}

// elementOf is what a step of three units says besides.
func (t *Translator) elementOf(s *step) element {
	if s.more == 0 {
		return element{}
	}
	return t.elements[s.more-1]
}

// before is how many values were in a channel's buffer before a step. What is done for one that waits comes after what made
// it possible, but it says how many there were before that.
func (s *step) before() uint64 {
	n := uint64(s.waiting())
	if s.other() != 0 && s.op() == hooklog.Receive {
		return n + 1
	}
	if s.other() != 0 && s.op() == hooklog.Send && n > 0 {
		return n - 1
	}
	return n
}

// channelOf is the channel that a step is about. One whose buffer has other values than it should is another one in the same
// memory, or something was done with it that has no record.
func (t *Translator) channelOf(s *step) *channel {
	c := t.channels.get(s.key)
	if c != nil && c.capacity == s.capacity() && c.waiting() == s.before() {
		return c
	}
	id := t.objectAt(trace.Object{Kind: trace.Channel, Capacity: s.capacity()}, KindChannel, s.site(), s.addr())
	c = t.channels.put(s.key, channel{id: id, capacity: s.capacity(), sent: s.before()})
	for n := uint64(1); n <= c.sent; n++ {
		t.bring(id, trace.Send, n)
		c.buffer = append(c.buffer, waitingValue{begin: uint32(len(t.state))})
	}
	return c
}

// channel is an operation on a channel.
func (t *Translator) channel(s *step) {
	if s.other() != 0 && s.op() != hooklog.Meet {
		own := *s
		own.by = s.other() - 1
		s = &own
	}
	r := t.record(trace.None, 0, s)
	c := t.channelOf(s)
	r.Object = c.id
	switch s.op() {
	case hooklog.Meet:
		t.meet(s, c, &r)
	case hooklog.Send:
		t.send(s, c, &r)
	case hooklog.Receive:
		t.receive(s, c, &r)
	case hooklog.Close:
		if !c.closed {
			r.Op = trace.Close
		}
		c.closed = true
	case hooklog.ReceiveClosed:
		if !c.closed {
			c.closed = true
			t.bring(c.id, trace.Close, 0)
		}
		r.Op = trace.ReceiveClosed
	}
	if r.Op != trace.None {
		t.put(r)
	}
}

// send is one to a buffer: no hook tells another one so.
func (t *Translator) send(s *step, c *channel, r *trace.Record) {
	if c.capacity == 0 {
		return
	}
	c.sent++
	r.Op, r.Value = trace.Send, c.sent
	e := t.elementOf(s)
	setElement(r, e)
	c.buffer = append(c.buffer, waitingValue{element: e})
}

// receive takes the first value of a buffer: no hook tells it of an empty one. What was there at the beginning is known from this.
func (t *Translator) receive(s *step, c *channel, r *trace.Record) {
	if c.waiting() == 0 {
		return
	}
	c.received++
	r.Op, r.Value = trace.Receive, c.received
	v := c.take()
	if v.begin != 0 {
		v.element = t.elementOf(s)
		setElement(&t.state[v.begin-1], v.element)
	}
	setElement(r, v.element)
}

// setElement says what was sent, where that is known.
func setElement(r *trace.Record, e element) {
	if e.known {
		r.Value = e.bits
	}
}

// meet is a send and its receive without a buffer.
func (t *Translator) meet(s *step, c *channel, r *trace.Record) {
	e := t.elementOf(s)
	c.sent++
	c.received++
	r.Op, r.Value = trace.Meet, c.sent
	setElement(r, e)
	r.Other, r.OtherSite = t.number(s.other()), t.placeAt(e.waits)
	if s.aux() == 0 {
		r.Goroutine, r.Other, r.Site, r.OtherSite = r.Other, r.Goroutine, r.OtherSite, r.Site
	}
}

// mostCases is how many cases a trace has of a default.
const mostCases = 16

// defaultOf is the default of a select of several cases.
func (t *Translator) defaultOf(s *step, seq uint64) {
	for t.nextCase < len(t.cases) && t.cases[t.nextCase].seq < seq {
		t.nextCase++
	}
	var cases [mostCases]trace.Record
	n := 0
	for ; t.nextCase < len(t.cases) && t.cases[t.nextCase].seq == seq; t.nextCase++ {
		if n < mostCases {
			cases[n] = t.caseOf(&t.cases[t.nextCase].step, s, hooklog.CaseSend)
			n++
		}
	}
	t.putDefault(s, cases[:n])
}

// singleDefault is that of a select of one case.
func (t *Translator) singleDefault(s *step) {
	t.putDefault(s, []trace.Record{t.caseOf(s, s, hooklog.DefaultSend)})
}

func (t *Translator) putDefault(s *step, cases []trace.Record) {
	r := t.record(trace.Default, 0, s)
	r.Count = uint16(len(cases))
	t.put(r)
	t.out = append(t.out, cases...)
}

// caseOf is a case of a default.
func (t *Translator) caseOf(c, of *step, send hooklog.Op) trace.Record {
	r := t.record(trace.Case, t.channelOf(c).id, of)
	if c.op() == send {
		r.Kind = trace.IsSend
	}
	return r
}
