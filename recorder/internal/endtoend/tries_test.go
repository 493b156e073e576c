package endtoend

import (
	"os"
	"os/exec"
	"path/filepath"
	"strings"
	"testing"
)

// lines are those of the example trylock's trace, by version, that tell its tries. Version 1
// hasn't the one that fails, and without it main alone uses mu.
var lines = map[string][]string{
	"1": {"rlock g2 rw trylock/main.go:28", "lock main rw trylock/main.go:35"},
	"2": {
		"lock main mu trylock/main.go:16", "tryfail g1 mu trylock/main.go:18", "tryrlock g2 rw trylock/main.go:28",
		"trylock main rw trylock/main.go:35",
	},
}

// checkTries: the trace is of this version, and tells the tries as it does.
func checkTries(t *testing.T, trace, version string) {
	t.Helper()
	if !strings.HasPrefix(trace, "gotrace "+version+"\n") {
		t.Errorf("version %s: begins otherwise\n%s", version, trace)
	}
	for _, line := range lines[version] {
		if !strings.Contains(trace, "\n"+line+"\n") {
			t.Errorf("version %s: no line %s\n%s", version, line, trace)
		}
	}
	if version == "1" && (strings.Contains(trace, "\ntry") || strings.Contains(trace, " mu ")) {
		t.Errorf("version 1 has no words for tries\n%s", trace)
	}
}

// TestTries: TryLock and TryRLock are written as the version that is asked for has them, of a run and of a log.
func TestTries(t *testing.T) {
	t.Parallel()
	program := filepath.Join(t.TempDir(), "trylock")
	build(t, programs, program, "./trylock")
	cmd := exec.Command(program)
	cmd.Env = append(os.Environ(), "GOREC_LOG="+program+".log")
	mustRun(t, programs, cmd)
	for _, c := range []struct {
		version string
		flags   []string
	}{{"1", nil}, {"1", []string{"-format", "1"}}, {"2", []string{"-format", "2"}}} {
		b, err := os.ReadFile(record(t, programs, program, "1", "0", c.flags...))
		if err != nil {
			t.Fatal(err)
		}
		checkTries(t, string(b), c.version)
		words := append(append([]string{"trace"}, c.flags...), program+".log", program)
		out, errs, status := runIn(t, programs, words...)
		if status != 0 {
			t.Errorf("%v: status %d\n%s", words, status, errs)
		}
		checkTries(t, out, c.version)
	}
}
