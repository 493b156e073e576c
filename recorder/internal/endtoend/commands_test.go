package endtoend

import (
	"bytes"
	"fmt"
	"io"
	"os"
	"path/filepath"
	"strings"
	"syscall"
	"testing"
	"time"
)

// stub is a judge that finds nothing.
func stub(t *testing.T) string {
	t.Helper()
	return judgeSaying(t, filepath.Join(t.TempDir(), "judge"), "clean: 0 events, 0 accesses", 0)
}

// judgeSaying makes a judge of which report and status are the same for each trace.
func judgeSaying(t *testing.T, path, report string, status int) string {
	t.Helper()
	script := fmt.Sprintf("#!/bin/sh\ncat >/dev/null\necho '%s'\nexit %d\n", report, status)
	if err := os.WriteFile(path, []byte(script), 0o755); err != nil {
		t.Fatal(err)
	}
	return path
}

func TestNoJudge(t *testing.T) {
	out, errs, status := runTool(t, "run", "-gorace", "/no/such/judge", "./runs")
	if status != 3 || out != "" || !strings.Contains(errs, "gorec: no judge: ") {
		t.Errorf("status %d\n%s%s", status, out, errs)
	}
}

// TestInterrupted: a program that ^C ends has its trace, and no progress is shown where
// standard error is no terminal.
func TestInterrupted(t *testing.T) {
	trace := filepath.Join(t.TempDir(), "run.gotrace")
	cmd := gorecCommand("run", "-o", trace, "-gorace", stub(t), "./waits")
	cmd.Dir = root + "/testdata/commands"
	cmd.SysProcAttr = &syscall.SysProcAttr{Setpgid: true}
	var errs bytes.Buffer
	cmd.Stderr = &errs
	out, err := cmd.StdoutPipe()
	if err != nil {
		t.Fatal(err)
	}
	if err := cmd.Start(); err != nil {
		t.Fatal(err)
	}
	first := make([]byte, len("waits\n"))
	if _, err := io.ReadFull(out, first); err != nil {
		t.Fatalf("%v\n%s", err, errs.String())
	}
	time.Sleep(1500 * time.Millisecond) // as long as progress takes to show
	syscall.Kill(-cmd.Process.Pid, syscall.SIGINT)
	rest, _ := io.ReadAll(out)
	cmd.Wait()
	text, err := os.ReadFile(trace)
	if err != nil || !strings.Contains(string(text), "write main n ") {
		t.Errorf("the trace: %v\n%s", err, text)
	}
	if !strings.HasPrefix(string(rest), "clean: ") || strings.Contains(errs.String(), "so far") {
		t.Errorf("%s%s", rest, errs.String())
	}
}
