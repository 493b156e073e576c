package main

import (
	"bufio"
	"bytes"
	"encoding/json"
	"errors"
	"io"
	"os"
	"os/exec"
	"sync"
	"sync/atomic"
	"time"

	"gorace.local/recorder/internal/report"
)

// piped runs a program, of which the output goes on line by line; its errors too, if nothing else takes them.
func piped(cmd *exec.Cmd, to lineWriter, run func() error) error {
	r, w, err := os.Pipe()
	if err != nil {
		return err
	}
	from := &pipeEnd{File: r}
	done := make(chan struct{})
	go func() {
		defer close(done)
		to.readFrom(from)
		io.Copy(io.Discard, from) // where nothing can be written any more, the program needn't wait
	}()
	if cmd.Stdout = w; cmd.Stderr == nil {
		cmd.Stderr = w
	}
	err = run()
	w.Close()
	from.end()
	<-done
	r.Close()
	return err
}

// A pipeEnd reads what a program writes. What the program has started may keep the pipe open: once the program has ended, it isn't
// waited for.
type pipeEnd struct {
	*os.File
	ended   atomic.Bool
	isQuiet bool
}

// longestQuiet is how long an ended program's pipe may have nothing to read.
const longestQuiet = 2 * time.Second

func (p *pipeEnd) end() {
	p.ended.Store(true)
	p.SetReadDeadline(time.Now().Add(longestQuiet)) // of a Read that waits
}

func (p *pipeEnd) Read(b []byte) (n int, err error) {
	if p.isQuiet {
		return 0, io.EOF
	}
	if p.ended.Load() {
		p.SetReadDeadline(time.Now().Add(longestQuiet))
	}
	if n, err = p.File.Read(b); errors.Is(err, os.ErrDeadlineExceeded) {
		p.isQuiet, err = true, io.EOF
	}
	return n, err
}

// A lineWriter takes lines.
type lineWriter func(line []byte) error

// longestLine is the longest that isn't handed on in parts.
const longestLine = 1 << 16

// readFrom hands on all lines. The last one gets an end if it has none, so that a report begins a line.
func (to lineWriter) readFrom(r io.Reader) {
	in := bufio.NewReaderSize(r, longestLine)
	for {
		line, err := in.ReadSlice('\n')
		if err == nil || err == bufio.ErrBufferFull {
			if to(line) != nil {
				return
			}
			continue
		}
		if len(line) > 0 {
			to(append(line, '\n'))
		}
		return
	}
}

// Write hands on lines, which are whole.
func (to lineWriter) Write(b []byte) (int, error) {
	for _, line := range bytes.SplitAfter(b, []byte("\n")) {
		if len(line) > 0 {
			if err := to(line); err != nil {
				return 0, err
			}
		}
	}
	return len(b), nil
}

// An event is a line of -json. The last one has the verdict.
type event struct {
	Action    string // output; race, of one race; predicted, of one; pass, fail or racing, with the verdict
	Package   string
	Output    string       `json:",omitempty"`
	Elapsed   float64      `json:",omitempty"`
	Race      *report.Race `json:",omitempty"`
	Verdict   *verdict     `json:",omitempty"`
	Predicted *report.Race `json:",omitempty"`
}

// writeJSON has what is written be lines of JSON. At the end those on the races come, and the last one.
func (s *session) writeJSON() (end func(*run)) {
	var mu sync.Mutex // the program and gorec write side by side
	to := json.NewEncoder(s.out)
	to.SetEscapeHTML(false)
	write := func(e event) error {
		mu.Lock()
		defer mu.Unlock()
		e.Package = s.path
		return to.Encode(e)
	}
	s.piped = func(line []byte) error { return write(event{Action: "output", Output: string(line)}) }
	s.out, s.notes = s.piped, s.piped
	return func(r *run) {
		for _, o := range r.reports {
			for i := range o.Races {
				write(event{Action: "race", Race: &o.Races[i]})
			}
			for i := range o.Predicted {
				write(event{Action: "predicted", Predicted: &o.Predicted[i]})
			}
		}
		action, is := map[int]string{0: "pass", cutOff: "pass", racing: "racing"}[r.Status]
		if !is {
			action = "fail"
		}
		write(event{Action: action, Elapsed: r.elapsed.Seconds(), Verdict: &r.verdict})
	}
}
