package endtoend

import (
	"os"
	"path/filepath"
	"strings"
	"testing"
)

// TestHelp: help and the version go to standard output, and end with 0; the version is that
// of the newest changes.
func TestHelp(t *testing.T) {
	changes, err := os.ReadFile(root + "/../CHANGELOG.md")
	if err != nil {
		t.Fatal(err)
	}
	_, newest, _ := strings.Cut(string(changes), "\n## ")
	newest, _, _ = strings.Cut(newest, ",")
	for _, c := range []struct{ word, begin string }{
		{"help", "gorec records"}, {"-h", "gorec records"}, {"-help", "gorec records"}, {"--help", "gorec records"},
		{"version", "gorec " + newest + " "}, {"-version", "gorec " + newest + " "}, {"--version", "gorec " + newest + " "},
	} {
		out, errs, status := runTool(t, c.word)
		if status != 0 || !strings.HasPrefix(out, c.begin) || errs != "" {
			t.Errorf("%s: status %d\n%s%s", c.word, status, out, errs)
		}
	}
}

// TestRefusedBeforeTheRun: what can't be used is told before the program runs, with status 3.
func TestRefusedBeforeTheRun(t *testing.T) {
	nowhere := filepath.Join(t.TempDir(), "none", "run.gotrace")
	for _, c := range []struct {
		variable string
		args     []string
		told     string
	}{
		{"", []string{"-format", "3"}, "gorec: -format 3: a trace has version 1 or 2\n"},
		{"", []string{"-o", nowhere}, "gorec: open " + nowhere + ": no such file or directory\n"},
		{"", []string{"-log", nowhere}, "gorec: open " + nowhere + ": no such file or directory\n"},
		{"", []string{"-seed", "abc"}, "gorec: -seed abc: a seed is a number from 0 to 4,294,967,295\n"},
		{"", []string{"-seed", "1x"}, "gorec: -seed 1x: a seed is a number from 0 to 4,294,967,295\n"},
		{"", []string{"-seed", "-1"}, "gorec: -seed -1: a seed is a number from 0 to 4,294,967,295\n"},
		{"", []string{"-seed", "4294967296"}, "gorec: -seed 4294967296: a seed is a number from 0 to 4,294,967,295\n"},
		{"GOREC_SEED=abc", nil, "gorec: GOREC_SEED=abc: a seed is a number from 0 to 4,294,967,295\n"},
		{"GOREC_FORMAT=7", nil, "gorec: GOREC_FORMAT=7: a trace has version 1 or 2\n"},
		{"GOREC_FORMAT=two", nil, "gorec: GOREC_FORMAT=two: a trace has version 1 or 2\n"},
	} {
		name, value, _ := strings.Cut(c.variable, "=")
		if name != "" {
			t.Setenv(name, value)
		}
		args := append([]string{"run", "-gorace", stub(t)}, c.args...)
		out, errs, status := runTool(t, append(args, "./runs")...)
		if status != 3 || out != "" || errs != c.told {
			t.Errorf("%s %v: status %d\n%s%s", c.variable, c.args, status, out, errs)
		}
		if name != "" {
			os.Unsetenv(name)
		}
	}
}

// TestLog: a log is kept where its file is named from, also where tests run elsewhere.
func TestLog(t *testing.T) {
	dir, err := filepath.Abs(root + "/testdata/commands")
	if err != nil {
		t.Fatal(err)
	}
	path, err := filepath.Rel(dir, filepath.Join(t.TempDir(), "log"))
	if err != nil {
		t.Fatal(err)
	}
	_, errs, status := runTool(t, "test", "-log", path, "-gorace", stub(t), "./fails", "-test.run", "Passes")
	if status != 0 {
		t.Errorf("status %d\n%s", status, errs)
	}
	if st, err := os.Stat(filepath.Join(dir, path)); err != nil || st.Size() == 0 {
		t.Errorf("the log: %v", err)
	}
}
