package translate

import (
	"io"
	"runtime"
	"syscall"
	"testing"
	"time"

	"gorace.local/recorder/internal/hooklog"
	"gorace.local/recorder/internal/hooklog/testdata/hooklogtest"
)

const benchRecords = 4000000

// shapes are what programs do most of the time: each writes some records by goroutines that take turns.
var shapes = []struct {
	name string
	turn func(p *program, g *hooklogtest.Goroutine, i int) (records int)
}{
	{"locks", func(p *program, g *hooklogtest.Goroutine, i int) int {
		mu := 0x100000 + uint64(i%101)*64
		g.Do(hooklog.Lock, mu, p.at(10))
		m := g.Moment(p.at(11))
		g.Access(hooklog.Read, mu+16, 1, 0, 1, m)
		g.Access(hooklog.Write, mu+16, 1, 0, 1, m)
		g.Do(hooklog.Unlock, mu, p.at(12))
		return 5
	}},
	{"memory", func(p *program, g *hooklogtest.Goroutine, i int) int {
		g.Do(hooklog.Lock, 0x100000, p.at(10))
		m := g.Moment(p.at(11))
		g.Object(0x200000, 200000*8, 8)
		for k := 0; k < 100; k++ {
			op := hooklog.Read
			if k%4 == 0 {
				op = hooklog.Write
			}
			g.Access(op, 0x200000+uint64((i*37+k*11)%200000)*8, 0xff, 0, 1, m)
		}
		g.Do(hooklog.Unlock, 0x100000, p.at(12))
		return 103
	}},
	{"ranges", func(p *program, g *hooklogtest.Goroutine, i int) int {
		g.Do(hooklog.Lock, 0x100000, p.at(10))
		g.Access(hooklog.Write, 0x200000+uint64(i%1000)*800, 0xff, 0, 100, g.Moment(p.at(11)))
		g.Do(hooklog.Unlock, 0x100000, p.at(12))
		return 102
	}},
	{"channels", func(p *program, g *hooklogtest.Goroutine, i int) int {
		c := 0x300000 + uint64(i%51)*128
		g.Step(hooklogtest.Step{Op: hooklog.Send, Addr: c, Site: p.at(10), Value: 4 << 32, Element: uint64(i), Has: true})
		g.Step(hooklogtest.Step{Op: hooklog.Receive, Addr: c, Site: p.at(10), Value: 4<<32 | 1, Element: uint64(i), Has: true})
		return 2
	}},
	{"atomics", func(p *program, g *hooklogtest.Goroutine, i int) int {
		g.Step(hooklogtest.Step{Op: hooklog.AtomicRMW, Aux: 8, Addr: 0x400000 + uint64(i%21)*8, Site: p.at(10)})
		return 1
	}},
	{"goroutines", func(p *program, g *hooklogtest.Goroutine, i int) int {
		child := g.Go(p.w.Header.Goroutines, p.at(10))
		child.Do(hooklog.Lock, 0x500000, p.at(11))
		child.Write(0x500100, p.at(12))
		child.Do(hooklog.Unlock, 0x500000, p.at(13))
		child.End()
		return 6
	}},
}

// BenchmarkTranslate reads and translates four million records; /trace writes the traces too.
func BenchmarkTranslate(b *testing.B) {
	for _, shape := range shapes {
		b.Run(shape.name, func(b *testing.B) { benchmarkShape(b, shape.turn, nil) })
		b.Run(shape.name+"/trace", func(b *testing.B) { benchmarkShape(b, shape.turn, io.Discard) })
	}
}

func benchmarkShape(b *testing.B, turn func(*program, *hooklogtest.Goroutine, int) int, out io.Writer) {
	for n := 0; n < b.N; n++ {
		b.StopTimer()
		p := newProgramOf(b, 1<<17, Options{})
		all := []*hooklogtest.Goroutine{p.main}
		for id := uint32(2); id < 6; id++ {
			all = append(all, p.main.Go(id, p.at(1)))
		}
		b.StartTimer()
		var most uint64
		segments := 0
		var used time.Duration
		for i, records := 0, 0; records < benchRecords; {
			b.StopTimer()
			for part := 0; part < benchRecords/8; {
				k := turn(p, all[i%len(all)], i)
				part, records, i = part+k, records+k, i+1
			}
			b.StartTimer()
			begin := processor(b)
			for {
				s, err := p.f.next(records >= benchRecords)
				if err != nil {
					b.Fatal(err)
				}
				if s == nil {
					break
				}
				segments++
				if out != nil {
					if _, err := s.Trace.Write(out); err != nil {
						b.Fatal(err)
					}
				}
			}
			b.StopTimer()
			used += processor(b) - begin
			var m runtime.MemStats
			if runtime.ReadMemStats(&m); m.HeapAlloc > most {
				most = m.HeapAlloc
			}
			b.StartTimer()
		}
		b.ReportMetric(float64(most)/1e6, "MB-heap")
		b.ReportMetric(float64(segments), "segments")
		b.ReportMetric(used.Seconds(), "processor-s")
	}
}

// processor is the processor time that was taken so far.
func processor(b *testing.B) time.Duration {
	var u syscall.Rusage
	if err := syscall.Getrusage(syscall.RUSAGE_SELF, &u); err != nil {
		b.Fatal(err)
	}
	return time.Duration(u.Utime.Nano() + u.Stime.Nano())
}
