package translate

import (
	"testing"

	"gorace.local/recorder/internal/hooklog"
	"gorace.local/recorder/internal/hooklog/testdata/hooklogtest"
)

// onChannel does something with the channel c at 0x1200, with so many values before it in a buffer for capacity.
func (p *program) onChannel(g *hooklogtest.Goroutine, op hooklog.Op, capacity, before uint64, line int, more hooklogtest.Step) {
	p.names[0x1200] = "c"
	more.Op, more.Addr, more.Value = op, 0x1200, capacity<<32|before
	more.Site = p.at(line)
	g.Step(more)
}

// A meet stands once, the sender first, whoever came second.
func TestMeet(t *testing.T) {
	p := newProgram(t, Options{})
	g := p.main.Go(5, p.at(1))
	p.onChannel(p.main, hooklog.Meet, 0, 0, 2, hooklogtest.Step{Aux: 1, Other: 5, Waits: p.at(12)})
	p.onChannel(p.main, hooklog.Meet, 0, 0, 3, hooklogtest.Step{Other: 5, Waits: p.at(13), Element: 40, Has: true})
	p.onChannel(g, hooklog.Close, 0, 0, 14, hooklogtest.Step{})
	p.onChannel(p.main, hooklog.ReceiveClosed, 0, 0, 4, hooklogtest.Step{})
	p.want(`
gotrace 2
goroutine g1
chan c 0
go main g1 main.go:1
meet main g1 c 1 main.go:2 main.go:12
meet g1 main c 40 main.go:13 main.go:3
close g1 c main.go:14
recvclosed main c main.go:4
`)
}

// What is done for one that waits on a channel with a buffer is in its name and at its place: who sends to one that waits for an
// empty buffer also receives for it, who receives from a full one also sends for one that waits. Who closes ends a wait.
func TestDoneForOthers(t *testing.T) {
	p := newProgram(t, Options{})
	g := p.main.Go(5, p.at(1))
	h := p.main.Go(6, p.at(2))
	p.onChannel(p.main, hooklog.Send, 1, 0, 3, hooklogtest.Step{})
	p.onChannel(p.main, hooklog.Receive, 1, 0, 13, hooklogtest.Step{Other: 6})
	p.onChannel(g, hooklog.Send, 1, 0, 14, hooklogtest.Step{})
	p.onChannel(p.main, hooklog.Receive, 1, 1, 4, hooklogtest.Step{})
	p.onChannel(p.main, hooklog.Send, 1, 1, 15, hooklogtest.Step{Other: 7})
	p.onChannel(h, hooklog.Receive, 1, 1, 25, hooklogtest.Step{})
	p.onChannel(p.main, hooklog.Close, 1, 0, 5, hooklogtest.Step{})
	p.onChannel(p.main, hooklog.ReceiveClosed, 1, 0, 16, hooklogtest.Step{Other: 6})
	p.want(`
gotrace 2
goroutine g1
goroutine g2
chan c 1
go main g1 main.go:1
go main g2 main.go:2
send main c 1 main.go:3
recv g1 c 1 main.go:13
send g1 c 2 main.go:14
recv main c 2 main.go:4
send g2 c 3 main.go:15
recv g2 c 3 main.go:25
close main c main.go:5
recvclosed g1 c main.go:16
`)
}

// Between what is done and what is done for the other one a segment may end.
func TestCutBetweenTheTwo(t *testing.T) {
	p := newProgram(t, Options{})
	p.main.Go(5, p.at(1))
	p.onChannel(p.main, hooklog.Send, 1, 0, 3, hooklogtest.Step{})
	p.cut()
	p.onChannel(p.main, hooklog.Receive, 1, 0, 13, hooklogtest.Step{Other: 6})
	p.onChannel(p.main, hooklog.Send, 1, 0, 4, hooklogtest.Step{})
	p.onChannel(p.main, hooklog.Receive, 1, 1, 5, hooklogtest.Step{})
	if got := p.cut(); got != `gotrace 2
chan c 1
goroutine g1
send main c 1 main.go:13
go main g1 main.go:1
recv g1 c 1 main.go:13
send main c 2 main.go:4
recv main c 2 main.go:5
` {
		t.Errorf("after the send\n%s", got)
	}
	p.onChannel(p.main, hooklog.Send, 1, 1, 14, hooklogtest.Step{Other: 6})
	p.onChannel(p.main, hooklog.Receive, 1, 1, 6, hooklogtest.Step{})
	p.want(`
gotrace 2
goroutine g1
chan c 1
go main g1 main.go:1
send g1 c 1 main.go:14
recv main c 1 main.go:6
`)
}

// Elements of values that are known stand in the place of numbers, and what waits keeps its own.
func TestElements(t *testing.T) {
	p := newProgram(t, Options{})
	g := p.main.Go(5, p.at(1))
	for i, element := range []uint64{1 << 63, 9, 9} {
		p.onChannel(p.main, hooklog.Send, 3, uint64(i), 2, hooklogtest.Step{Element: element, Has: true})
	}
	for i := range [3]int{} {
		p.onChannel(g, hooklog.Receive, 3, uint64(3-i), 12, hooklogtest.Step{})
	}
	p.want(`
gotrace 2
goroutine g1
chan c 3
go main g1 main.go:1
send main c 9223372036854775808 main.go:2
send main c 9 main.go:2
send main c 9 main.go:2
recv g1 c 9223372036854775808 main.go:12
recv g1 c 9 main.go:12
recv g1 c 9 main.go:12
`)
}

// A channel whose buffer has changed without a record is another one from there on.
func TestAChangedBuffer(t *testing.T) {
	p := newProgram(t, Options{})
	g := p.main.Go(5, p.at(1))
	p.onChannel(g, hooklog.Send, 1, 0, 2, hooklogtest.Step{})
	p.onChannel(g, hooklog.Send, 1, 0, 3, hooklogtest.Step{})
	p.onChannel(p.main, hooklog.Receive, 1, 1, 4, hooklogtest.Step{})
	p.want(`
gotrace 2
goroutine g1
chan c 1
go main g1 main.go:1
send g1 c 1 main.go:3
recv main c 1 main.go:4
`)
}

// A default stands with all its cases, also where one of them is read later than what follows.
func TestDefault(t *testing.T) {
	p := newProgram(t, Options{})
	p.names[0x1300] = "d"
	g := p.main.Go(5, p.at(1))
	seq := p.main.Step(hooklogtest.Step{Op: hooklog.Default, Site: p.at(3), Value: 2})
	p.main.Step(hooklogtest.Step{Op: hooklog.CaseSend, Addr: 0x1200, Site: p.at(3), Seq: seq})
	p.onChannel(g, hooklog.DefaultSend, 0, 0, 4, hooklogtest.Step{})
	p.onChannel(g, hooklog.DefaultReceive, 0, 0, 5, hooklogtest.Step{})
	p.onChannel(g, hooklog.Close, 0, 0, 6, hooklogtest.Step{})
	g.Do(hooklog.Close, 0x1300, p.at(7))
	if first := p.cut(); first != "gotrace 2\n" {
		t.Errorf("the first segment is\n%s", first)
	}
	p.main.Step(hooklogtest.Step{Op: hooklog.CaseReceive, Addr: 0x1300, Site: p.at(3), Seq: seq})
	p.want(`
gotrace 2
goroutine g1
chan c 0
chan d 0
go main g1 main.go:1
default main send:c,recv:d main.go:3
default g1 send:c main.go:4
default g1 recv:c main.go:5
close g1 c main.go:6
close g1 d main.go:7
`)
}

// What the runtime does with channels of its own is left out.
func TestChannelsOfTheRuntime(t *testing.T) {
	p := newProgram(t, Options{})
	p.main.Step(hooklogtest.Step{Op: hooklog.Go, Other: 2, Site: p.at(0, "runtime.gcenable")})
	p.w.Goroutine(2).Step(hooklogtest.Step{Op: hooklog.Send, Addr: 0x1200, Site: p.at(0, "runtime.bgsweep"), Value: 1 << 32})
	p.main.Step(hooklogtest.Step{Op: hooklog.Receive, Addr: 0x1200, Site: p.at(0, "runtime.gcenable"), Value: 1<<32 | 1})
	p.want("gotrace 2\n")
}
