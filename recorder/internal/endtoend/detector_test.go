package endtoend

import (
	"context"
	"flag"
	"os"
	"os/exec"
	"path/filepath"
	"strings"
	"testing"
	"time"
)

var detector = flag.Bool("detector", false, "run the example programs with Go's own race detector too")

// missedByDetector are programs of which Go's detector often or always misses the race,
// since it keeps four accesses of a word, and one clock for a channel of empty structs.
var missedByDetector = map[string]bool{"counter": true, "semaphore2": true, "loopvar": true}

// TestGoDetectorAgrees runs the example programs with Go's own race detector: it tells no
// race where none is, and, in one of a few runs, one where one is.
func TestGoDetectorAgrees(t *testing.T) {
	if !*detector {
		t.Skip("no -detector")
	}
	cgo, _ := exec.Command("go", "env", "CGO_ENABLED").Output()
	if _, err := exec.LookPath("gcc"); err != nil || strings.TrimSpace(string(cgo)) != "1" {
		t.Skip("no cgo, which -race needs")
	}
	entries, err := os.ReadDir(programs)
	if err != nil {
		t.Fatal(err)
	}
	for _, e := range entries {
		if !e.IsDir() {
			continue
		}
		name := e.Name()
		want := readVerdict(t, filepath.Join(programs, name, "main.go"))
		t.Run(name, func(t *testing.T) {
			t.Parallel()
			program := filepath.Join(t.TempDir(), "program")
			run(t, programs, "go", "build", "-race", "-o", program, "./"+name)
			told := false
			for i := 0; i < 5 && !told; i++ {
				told = tellsRace(program)
			}
			if told != (len(want.races) > 0) && !missedByDetector[name] {
				t.Errorf("Go's detector tells a race: %v", told)
			}
		})
	}
}

// tellsRace runs a program that was built with -race. One that deadlocks doesn't end: with
// -race a program has cgo, and where cgo is Go doesn't look for deadlocks.
func tellsRace(program string) bool {
	limit, stop := context.WithTimeout(context.Background(), 30*time.Second)
	defer stop()
	out, _ := exec.CommandContext(limit, program).CombinedOutput()
	return strings.Contains(string(out), "WARNING: DATA RACE")
}
