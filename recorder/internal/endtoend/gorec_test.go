package endtoend

import (
	"bytes"
	"os"
	"os/exec"
	"path/filepath"
	"strings"
	"testing"
)

// gorecCommand is gorec with these words.
func gorecCommand(args ...string) *exec.Cmd {
	return exec.Command(gorec, args...)
}

// runTool runs gorec over the programs of testdata/commands.
func runTool(t *testing.T, args ...string) (stdout, stderr string, status int) {
	t.Helper()
	return runIn(t, root+"/testdata/commands", args...)
}

// runIn runs gorec in a folder.
func runIn(t *testing.T, folder string, args ...string) (stdout, stderr string, status int) {
	t.Helper()
	return runWith(t, folder, nil, args...)
}

// runWith runs gorec in a folder, with variables of the environment.
func runWith(t *testing.T, folder string, env []string, args ...string) (stdout, stderr string, status int) {
	t.Helper()
	var out, errs bytes.Buffer
	cmd := gorecCommand(args...)
	cmd.Dir = folder
	cmd.Env = append(os.Environ(), env...)
	cmd.Stdout, cmd.Stderr = &out, &errs
	cmd.Run()
	return out.String(), errs.String(), cmd.ProcessState.ExitCode()
}

// run runs a command, which has to succeed.
func run(t *testing.T, dir, name string, args ...string) {
	t.Helper()
	mustRun(t, dir, exec.Command(name, args...))
}

func mustRun(t *testing.T, dir string, cmd *exec.Cmd) {
	t.Helper()
	cmd.Dir = dir
	if out, err := cmd.CombinedOutput(); err != nil {
		t.Fatalf("%s: %v\n%s", strings.Join(cmd.Args, " "), err, out)
	}
}

// build builds a program of a folder, or its tests.
func build(t *testing.T, folder, program string, words ...string) {
	t.Helper()
	mustRun(t, folder, gorecCommand(append([]string{"build", "-o", program}, words...)...))
}

// buildAll builds all programs of a folder at once, and answers the folder that has them.
func buildAll(t *testing.T, folder string) (built string) {
	t.Helper()
	built = t.TempDir()
	build(t, folder, built+string(filepath.Separator), "./...")
	return built
}

// record runs a program that was built, with a judge that finds nothing, and answers the file with its trace. status is the
// program's own.
func record(t *testing.T, folder, program, seed, status string, flags ...string) (trace string) {
	t.Helper()
	trace = program + "." + seed + strings.Join(flags, "") + ".gotrace"
	words := append([]string{"exec", "-gorace", stub(t), "-seed", seed, "-o", trace}, flags...)
	_, notes, got := runIn(t, folder, append(words, program)...)
	want, told := 0, ""
	if status != "0" {
		want, told = 21, "gorec: the program ended with exit status "+status+"\n"
	}
	if got != want || !strings.Contains(notes, told) {
		t.Errorf("%s, seed %s: status %d\n%s", program, seed, got, notes)
	}
	return trace
}

// eachOf calls f with the name of each program of a folder, several at once.
func eachOf(t *testing.T, folder string, f func(t *testing.T, name string)) {
	t.Helper()
	mains, err := filepath.Glob(filepath.Join(folder, "*", "main.go"))
	if err != nil || len(mains) == 0 {
		t.Fatalf("%s has %d programs: %v", folder, len(mains), err)
	}
	t.Run("record", func(t *testing.T) {
		for _, main := range mains {
			name := filepath.Base(filepath.Dir(main))
			t.Run(name, func(t *testing.T) {
				t.Parallel()
				f(t, name)
			})
		}
	})
}
