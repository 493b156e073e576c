package endtoend

import (
	"os"
	"os/exec"
	"path/filepath"
	"strconv"
	"strings"
	"syscall"
	"testing"
	"time"
)

// waitsProgram is the program that tells its process and waits, built.
func waitsProgram(t *testing.T) string {
	t.Helper()
	program := filepath.Join(t.TempDir(), "waits")
	build(t, root+"/testdata/commands", program, "./waits")
	return program
}

// TestExecEnded: a signal that gorec alone gets ends the program too, and so does one that the program alone gets; what it did is
// judged, and no file is left.
func TestExecEnded(t *testing.T) {
	t.Parallel()
	program := waitsProgram(t)
	for _, c := range []struct {
		signal    syscall.Signal
		toProgram bool
	}{{syscall.SIGINT, false}, {syscall.SIGTERM, false}, {syscall.SIGKILL, true}} {
		var errs strings.Builder
		cmd, out, pid, folder := waitingFor(t, &errs, "exec", "-gorace", finder(t, "n"), program, "tell")
		if c.toProgram {
			syscall.Kill(pid, c.signal)
		} else {
			cmd.Process.Signal(c.signal)
		}
		report, _ := out.ReadString('\n')
		cmd.Wait()
		if cmd.ProcessState.ExitCode() != 66 || !strings.HasPrefix(report, "race on n: ") || runs(pid) {
			t.Errorf("%v: status %d, %s%s", c.signal, cmd.ProcessState.ExitCode(), report, errs.String())
		}
		if left, _ := filepath.Glob(folder + "/*"); len(left) > 0 {
			t.Errorf("%v: left are %v", c.signal, left)
		}
	}
}

const waitingTest = `package waits

import (
	"fmt"
	"os"
	"testing"
	"time"
)

func TestWaits(t *testing.T) {
	n := 0
	go func() { n++ }()
	time.Sleep(20 * time.Millisecond)
	n++
	os.WriteFile(os.Getenv("TOLD"), []byte(fmt.Sprint(os.Getpid())), 0o644)
	time.Sleep(time.Minute)
}
`

// TestTestEnds: tests end with gorec test, by a signal with a verdict, and where it is killed without one.
func TestTestEnds(t *testing.T) {
	t.Parallel()
	dir := t.TempDir()
	writeFiles(t, dir, map[string]string{"go.mod": "module example.com/waits\n\ngo 1.19\n", "waits_test.go": waitingTest})
	for _, signal := range []syscall.Signal{syscall.SIGINT, syscall.SIGTERM, syscall.SIGKILL} {
		told := filepath.Join(dir, signal.String())
		var out strings.Builder
		cmd := exec.Command(gorec, "test", "-gorace", finder(t, "n"), ".")
		cmd.Dir = dir
		cmd.Env = append(os.Environ(), "TOLD="+told, "TMPDIR="+t.TempDir())
		cmd.SysProcAttr = &syscall.SysProcAttr{Setpgid: true}
		cmd.Stdout, cmd.Stderr = &out, &out
		if err := cmd.Start(); err != nil {
			t.Fatal(err)
		}
		pid := numberIn(t, told)
		cmd.Process.Signal(signal)
		cmd.Wait()
		if runs(pid) {
			t.Errorf("%v: the tests run on", signal)
			syscall.Kill(pid, syscall.SIGKILL)
		}
		if signal != syscall.SIGKILL && (cmd.ProcessState.ExitCode() != 66 || !strings.Contains(out.String(), "race on n: ")) {
			t.Errorf("status %d\n%s", cmd.ProcessState.ExitCode(), out.String())
		}
	}
}

// numberIn is what a program writes to a file, which isn't there yet.
func numberIn(t *testing.T, path string) int {
	t.Helper()
	for i := 0; i < 1200; i++ {
		if b, err := os.ReadFile(path); err == nil && len(b) > 0 {
			if n, err := strconv.Atoi(string(b)); err == nil {
				return n
			}
		}
		time.Sleep(100 * time.Millisecond)
	}
	t.Fatalf("nobody writes %s", path)
	return 0
}
