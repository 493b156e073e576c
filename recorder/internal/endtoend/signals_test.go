package endtoend

import (
	"bufio"
	"fmt"
	"io"
	"os"
	"os/exec"
	"path/filepath"
	"strconv"
	"strings"
	"syscall"
	"testing"
	"time"
)

// output is what a gorec writes.
type output struct {
	*bufio.Reader
	io.Closer
}

// waiting starts gorec over a program that tells its process and waits; the folder is that of
// temporary files.
func waiting(t *testing.T, errs *strings.Builder) (cmd *exec.Cmd, out output, pid int, folder string) {
	t.Helper()
	return waitingFor(t, errs, "run", "-gorace", stub(t), "./waits", "tell")
}

// waitingFor is waiting with other words for gorec.
func waitingFor(t *testing.T, errs *strings.Builder, words ...string) (cmd *exec.Cmd, out output, pid int, folder string) {
	t.Helper()
	return waitingIn(t, root+"/testdata/commands", errs, words...)
}

// waitingIn is waiting in another folder.
func waitingIn(t *testing.T, dir string, errs *strings.Builder, words ...string) (cmd *exec.Cmd, out output, pid int, folder string) {
	t.Helper()
	folder = t.TempDir()
	cmd = gorecCommand(words...)
	cmd.Dir = dir
	cmd.Env = append(os.Environ(), "TMPDIR="+folder, "XDG_CACHE_HOME="+t.TempDir())
	cmd.SysProcAttr = &syscall.SysProcAttr{Setpgid: true}
	cmd.Stderr = errs
	pipe, err := cmd.StdoutPipe()
	if err != nil {
		t.Fatal(err)
	}
	if err := cmd.Start(); err != nil {
		t.Fatal(err)
	}
	out = output{bufio.NewReader(pipe), pipe}
	line, err := out.ReadString('\n')
	if err == nil {
		pid, err = strconv.Atoi(strings.TrimSpace(line))
	}
	if err != nil {
		t.Fatalf("%s: %v\n%s", line, err, errs)
	}
	return cmd, out, pid, folder
}

// runs reports whether a process does, until it has ended or ten seconds are over.
func runs(pid int) bool {
	for i := 0; i < 100; i++ {
		if !isThere(pid) {
			return false
		}
		time.Sleep(100 * time.Millisecond)
	}
	return true
}

func isThere(pid int) bool {
	b, err := os.ReadFile(fmt.Sprintf("/proc/%d/stat", pid))
	return err == nil && !strings.Contains(string(b), ") Z ")
}

// TestKilled: a program doesn't outlive a gorec that is killed, and the next gorec removes what
// it left.
func TestKilled(t *testing.T) {
	var errs strings.Builder
	cmd, _, pid, folder := waiting(t, &errs)
	cmd.Process.Kill()
	cmd.Wait()
	if runs(pid) {
		t.Errorf("the program runs on")
		syscall.Kill(pid, syscall.SIGKILL)
	}
	left, _ := filepath.Glob(folder + "/gorec-run.*")
	if len(left) != 1 {
		t.Fatalf("left are %v", left)
	}
	old := time.Now().Add(-time.Hour)
	if err := os.Chtimes(left[0], old, old); err != nil {
		t.Fatal(err)
	}
	next := gorecCommand("run", "-o", "/dev/null", "-gorace", stub(t), "./runs")
	next.Dir = root + "/testdata/commands"
	next.Env = append(os.Environ(), "TMPDIR="+folder)
	if out, err := next.CombinedOutput(); err != nil {
		t.Fatalf("%v\n%s", err, out)
	}
	if left, _ = filepath.Glob(folder + "/*"); len(left) > 0 {
		t.Errorf("left are %v", left)
	}
}

// TestEnded: a signal that gorec alone gets ends the program too; what it did is judged, and no
// file is left.
func TestEnded(t *testing.T) {
	for _, s := range []syscall.Signal{syscall.SIGINT, syscall.SIGTERM, syscall.SIGHUP} {
		var errs strings.Builder
		cmd, out, pid, folder := waiting(t, &errs)
		cmd.Process.Signal(s)
		report, _ := out.ReadString('\n')
		cmd.Wait()
		if cmd.ProcessState.ExitCode() != 21 || !strings.HasPrefix(report, "clean: ") || runs(pid) {
			t.Errorf("%v: status %d, %s%s", s, cmd.ProcessState.ExitCode(), report, errs.String())
		}
		if left, _ := filepath.Glob(folder + "/*"); len(left) > 0 {
			t.Errorf("%v: left are %v", s, left)
		}
	}
}

// TestSecondSignal: after a signal what was recorded is judged, and gorec says so; another one ends gorec at once, and all that
// it has started. A signal that comes twice within a moment, as by timeout, is one.
func TestSecondSignal(t *testing.T) {
	told := filepath.Join(t.TempDir(), "told")
	slow := filepath.Join(t.TempDir(), "slow")
	if err := os.WriteFile(slow, []byte("#!/bin/sh\nprintf $$ >"+told+"\nexec sleep 60\n"), 0o755); err != nil {
		t.Fatal(err)
	}
	var errs strings.Builder
	cmd, _, pid, folder := waitingFor(t, &errs, "run", "-gorace", slow, "./waits", "tell")
	cmd.Process.Signal(syscall.SIGTERM)
	time.Sleep(time.Millisecond)
	cmd.Process.Signal(syscall.SIGTERM)
	judge := numberIn(t, told)
	time.Sleep(1500 * time.Millisecond)
	if !isThere(judge) || runs(pid) {
		t.Error("the judge doesn't run, or the program does")
	}
	began := time.Now()
	cmd.Process.Signal(syscall.SIGTERM)
	cmd.Wait()
	if status := cmd.ProcessState.ExitCode(); status != 128+int(syscall.SIGTERM) || runs(judge) || time.Since(began) > 10*time.Second ||
		!strings.Contains(errs.String(), "gorec: what was recorded is judged; one more signal ends gorec at once\n") {
		t.Errorf("status %d after %v\n%s", status, time.Since(began), errs.String())
	}
	if left, _ := filepath.Glob(folder + "/*"); len(left) > 0 {
		t.Errorf("left are %v", left)
	}
}

const deaf = `package main

import (
	"fmt"
	"os"
	"os/signal"
	"syscall"
	"time"
)

func main() {
	signal.Ignore(os.Interrupt, syscall.SIGTERM)
	n := 0
	go func() { n++ }()
	time.Sleep(20 * time.Millisecond)
	n++
	fmt.Println(os.Getpid())
	time.Sleep(time.Minute)
}
`

// TestDeaf: a program that goes on after a signal is killed by the second one, and what it did is judged.
func TestDeaf(t *testing.T) {
	dir := t.TempDir()
	writeFiles(t, dir, map[string]string{"go.mod": "module example.com/deaf\n\ngo 1.19\n", "main.go": deaf})
	var errs strings.Builder
	cmd, out, pid, _ := waitingIn(t, dir, &errs, "run", "-gorace", finder(t, "n"), ".")
	cmd.Process.Signal(syscall.SIGTERM)
	time.Sleep(1500 * time.Millisecond)
	if !isThere(pid) {
		t.Error("the program has ended")
	}
	cmd.Process.Signal(syscall.SIGTERM)
	report, _ := out.ReadString('\n')
	cmd.Wait()
	if cmd.ProcessState.ExitCode() != 66 || !strings.HasPrefix(report, "race on n: ") || runs(pid) {
		t.Errorf("status %d, %s%s", cmd.ProcessState.ExitCode(), report, errs.String())
	}
}

// TestUnread: a gorec whose output nobody reads any longer leaves no file.
func TestUnread(t *testing.T) {
	var errs strings.Builder
	cmd, out, pid, folder := waiting(t, &errs)
	out.Close()
	syscall.Kill(pid, syscall.SIGTERM)
	cmd.Wait()
	if status := cmd.ProcessState.ExitCode(); status != 128+int(syscall.SIGPIPE) || runs(pid) {
		t.Errorf("status %d\n%s", status, errs.String())
	}
	if left, _ := filepath.Glob(folder + "/*"); len(left) > 0 {
		t.Errorf("left are %v", left)
	}
}
