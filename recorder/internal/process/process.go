// Package process runs the programs that gorec starts, and has its temporary folder. None of them outlives gorec.
package process

import (
	"errors"
	"io"
	"os"
	"os/exec"
	"os/signal"
	"runtime"
	"strings"
	"sync"
	"syscall"
	"time"
)

// A Keeper runs programs.
type Keeper struct {
	Folder     string   // for temporary files
	lock       *os.File // of the folder
	foreground bool     // the terminal sends its signals to the programs too

	mu      sync.Mutex
	running *os.Process // that signals are for, nil where there is none
	kind    Kind        // of that
	last    time.Time   // when a signal came
}

// A Kind is that of what runs.
type Kind int

const (
	Program Kind = iota // it gets the signals
	Go                  // the command go, which waits for what it started, but only where the signal is ^C
	Judge               // signals aren't for it
)

// New makes the folder, and takes the signals by which users and machines end programs.
func New() (*Keeper, error) {
	sweep()
	folder, err := os.MkdirTemp("", prefix)
	if err != nil {
		return nil, err
	}
	lock, err := locked(folder)
	if err != nil {
		return nil, err
	}
	k := &Keeper{Folder: folder, lock: lock, foreground: inForeground()}
	signals := make(chan os.Signal, 4)
	signal.Notify(signals, os.Interrupt, syscall.SIGTERM, syscall.SIGHUP, syscall.SIGQUIT, syscall.SIGPIPE)
	go func() {
		for s := range signals {
			k.take(s.(syscall.Signal))
		}
	}()
	return k, nil
}

// End removes the folder.
func (k *Keeper) End() {
	os.RemoveAll(k.Folder)
	k.lock.Close()
}

// output is a file that somebody reads.
type output struct {
	*os.File
	keeper *Keeper
}

// Output is a file that gorec writes. Where nobody reads it any more, gorec ends at once: the signal alone may come too late.
func (k *Keeper) Output(f *os.File) io.Writer { return output{f, k} }

func (o output) Write(b []byte) (int, error) {
	n, err := o.File.Write(b)
	if errors.Is(err, syscall.EPIPE) {
		o.keeper.take(syscall.SIGPIPE)
	}
	return n, err
}

// Interrupted reports whether a signal has come: nothing new should begin.
func (k *Keeper) Interrupted() bool {
	k.mu.Lock()
	defer k.mu.Unlock()
	return !k.last.IsZero()
}

// oneSignal is how long signals count as one. The command timeout sends one to gorec, and then to its whole group.
const oneSignal = time.Second

// take hands a signal on to what runs, which a second one kills. Where nothing runs that signals are for, or nobody reads what
// gorec writes, gorec ends at once, and the kernel kills what it has started.
func (k *Keeper) take(s syscall.Signal) {
	k.mu.Lock()
	defer k.mu.Unlock()
	isFirst, isAnother := k.last.IsZero(), time.Since(k.last) > oneSignal
	switch {
	case s == syscall.SIGPIPE, k.running == nil && isAnother:
		k.End()
		os.Exit(128 + int(s)) // as shells have it
	case !isAnother:
		return
	case !isFirst:
		k.running.Kill()
	case k.kind == Go:
		syscall.Kill(-k.running.Pid, syscall.SIGINT)
	case s != syscall.SIGINT && s != syscall.SIGQUIT:
		k.running.Signal(s)
	case !k.foreground: // else the terminal has sent it to all that the program started
		syscall.Kill(-k.running.Pid, s)
	}
	k.last = time.Now()
}

// Run runs a program to its end.
func (k *Keeper) Run(cmd *exec.Cmd, kind Kind) error {
	runtime.LockOSThread() // the kernel kills the program where the thread that started it ends
	defer runtime.UnlockOSThread()
	cmd.SysProcAttr = attributes(kind != Program || !k.foreground)
	k.mu.Lock() // a signal waits until it runs
	err := cmd.Start()
	if err == nil && kind != Judge {
		k.running, k.kind = cmd.Process, kind
	}
	k.mu.Unlock()
	if err != nil {
		return err
	}
	err = cmd.Wait()
	k.mu.Lock()
	defer k.mu.Unlock()
	if k.running == cmd.Process {
		k.running = nil
	}
	return err
}

// inForeground reports whether this process is one of those that a terminal sends ^C to.
func inForeground() bool {
	text, _ := os.ReadFile("/proc/self/stat")
	_, rest, _ := strings.Cut(string(text), ") ") // behind the program's name
	words := strings.Fields(rest)                 // its state, its parent, its group, its session, its terminal, and that one's group
	return len(words) > 5 && words[2] == words[5]
}
