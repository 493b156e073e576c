package main

import (
	"errors"
	"fmt"
	"os/exec"
	"strings"
	"testing"
	"testing/iotest"
	"time"
)

// TestLastLine: a report begins a line, also after output that ends within one.
func TestLastLine(t *testing.T) {
	for script, want := range map[string]string{
		"printf bye": "bye\n", "echo bye": "bye\n", "printf 'a\nb'; echo c >&2": "a\nbc\n", "true": "",
	} {
		var got strings.Builder
		cmd := exec.Command("sh", "-c", script)
		err := piped(cmd, func(line []byte) error { got.Write(line); return nil }, cmd.Run)
		if got.String() != want || err != nil {
			t.Errorf("%s: %q, %v", script, got.String(), err)
		}
	}
}

// TestLines: lines are handed on whole, but for those that are too long.
func TestLines(t *testing.T) {
	long := strings.Repeat("x", longestLine)
	var got []string
	to := lineWriter(func(line []byte) error { got = append(got, string(line)); return nil })
	to.readFrom(iotest.HalfReader(strings.NewReader("ab\nc\n\n" + long + "yz\nd")))
	fmt.Fprint(to, "e\nf\n")
	if want := []string{"ab\n", "c\n", "\n", long, "yz\n", "d\n", "e\n", "f\n"}; fmt.Sprint(got) != fmt.Sprint(want) {
		t.Errorf("got %.200q", got)
	}
}

// TestLateReader: what a program has written comes whole, however late it is taken, and what it has started isn't waited for.
func TestLateReader(t *testing.T) {
	lines := 0
	cmd := exec.Command("sh", "-c", "seq 1000; sleep 60 &")
	err := piped(cmd, func([]byte) error {
		if lines++; lines == 1 {
			time.Sleep(longestQuiet + longestQuiet/10)
		}
		return nil
	}, cmd.Run)
	if lines != 1000 || err != nil {
		t.Errorf("%d lines, %v", lines, err)
	}
}

// TestNoOutput: a program ends though its output can't be written.
func TestNoOutput(t *testing.T) {
	cmd := exec.Command("sh", "-c", "head -c 1000000 /dev/zero; echo")
	if err := piped(cmd, func([]byte) error { return errors.New("no space left") }, cmd.Run); err != nil {
		t.Error(err)
	}
}
