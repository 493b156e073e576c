package endtoend

import (
	"os"
	"os/exec"
	"path/filepath"
	"strings"
	"testing"
)

// askUnproved builds gorace once, before any proof, and has it do a command with all traces.
func askUnproved(t *testing.T, command string, traces map[string]string) map[string]string {
	t.Helper()
	dir := t.TempDir()
	for name, path := range traces {
		b, err := os.ReadFile(path)
		if err != nil {
			t.Fatal(err)
		}
		if err := os.WriteFile(filepath.Join(dir, name), b, 0o644); err != nil {
			t.Fatal(err)
		}
	}
	// The interpreter, which rt try runs too, can't run a program with arguments: one step ends it.
	cmd := exec.Command("rt", append([]string{"try", "--steps", "1", "--seconds", "1800", "--cases", dir, "--"}, strings.Fields(command)...)...)
	cmd.Dir = root + "/../crates/gorace"
	out, err := cmd.Output()
	if _, ended := err.(*exec.ExitError); err != nil && !ended {
		t.Fatal(err)
	}
	reports := map[string]string{}
	for _, part := range strings.Split("\n"+string(out), "\n== ")[1:] {
		name, report, _ := strings.Cut(part, "\n")
		if _, asked := traces[name]; asked {
			reports[name] = strings.TrimRight(report, "\n") + "\n"
		}
	}
	for name := range traces {
		if _, there := reports[name]; !there {
			t.Errorf("%s: no report\n%s", name, out)
		}
	}
	return reports
}
