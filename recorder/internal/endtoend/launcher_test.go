package endtoend

import (
	"os"
	"os/exec"
	"path/filepath"
	"strings"
	"testing"
	"time"
)

// launch is a clone with the launcher, where the judge, the recorder and Go only say what they were told.
type launch struct{ clone string }

func newLaunch(t *testing.T) launch {
	t.Helper()
	launcher, err := os.ReadFile(root + "/../gorec")
	if err != nil {
		t.Fatal(err)
	}
	l := launch{t.TempDir()}
	says := "#!/bin/sh\ncd " + l.clone + "\necho "
	l.write(t, "gorec", string(launcher))
	l.write(t, "gorace", says+`judge "$@" >>said; [ ! -e broken ]`)
	l.write(t, "recorder/main.go", "package main")
	l.write(t, "recorder/out/gorec", says+`recorder "$@" >>said`)
	l.write(t, "bin/go", says+`>/dev/null
case $1 in
env) cat here ;;
version) echo "$2: $(cat built)" ;;
build) echo "build by $GOTOOLCHAIN" >>said; cat here >built ;;
esac`)
	l.write(t, "here", "go1.19.8")
	l.write(t, "built", "go1.19.8")
	return l
}

func (l launch) write(t *testing.T, name, text string) {
	t.Helper()
	path := filepath.Join(l.clone, name)
	err := os.MkdirAll(filepath.Dir(path), 0o755)
	if err == nil {
		err = os.WriteFile(path, []byte(text), 0o755)
	}
	if err != nil {
		t.Fatal(err)
	}
}

// run runs the launcher, and returns what was said, with | between lines, and the status.
func (l launch) run(t *testing.T, args string, env ...string) (said string, status int) {
	t.Helper()
	os.Remove(filepath.Join(l.clone, "said"))
	cmd := exec.Command(filepath.Join(l.clone, "gorec"), strings.Fields(args)...)
	cmd.Env = append(os.Environ(), "GOREC_JUDGE=", "GOTOOLCHAIN=", "PATH="+filepath.Join(l.clone, "bin")+":"+os.Getenv("PATH"))
	cmd.Env = append(cmd.Env, env...)
	if out, err := cmd.CombinedOutput(); err != nil {
		t.Logf("%s: %v\n%s", args, err, out)
	}
	lines, _ := os.ReadFile(filepath.Join(l.clone, "said"))
	return strings.ReplaceAll(strings.TrimSpace(string(lines)), "\n", "|"), cmd.ProcessState.ExitCode()
}

// TestLauncherBuilds: gorec is built where it is older than its source, or another Go compiles here.
func TestLauncherBuilds(t *testing.T) {
	t.Parallel()
	l := newLaunch(t)
	for _, c := range []struct{ here, want string }{
		{"go1.19.8", "recorder help"},
		{"go1.27.3", "build by go1.27.3|recorder help"},
		{"go1.27.3", "recorder help"},
		{"go1.26.1 X:nodwarf5", "build by go1.26.1 X:nodwarf5|recorder help"},
		{"devel go1.28-0123", "build by |recorder help"},
		{"", "recorder help"},
	} {
		l.write(t, "here", c.here)
		if got, _ := l.run(t, "help"); got != c.want {
			t.Errorf("with %s: %s, not %s", c.here, got, c.want)
		}
	}
	later := time.Now().Add(time.Hour)
	if err := os.Chtimes(filepath.Join(l.clone, "recorder/main.go"), later, later); err != nil {
		t.Fatal(err)
	}
	l.write(t, "here", "go1.19.8")
	l.write(t, "built", "go1.19.8")
	if got, _ := l.run(t, "help"); got != "build by go1.19.8|recorder help" {
		t.Errorf("with a newer source: %s", got)
	}
}

// TestLauncher: the clone's judge is built before anything is recorded, where it is wanted.
func TestLauncher(t *testing.T) {
	t.Parallel()
	l := newLaunch(t)
	for _, c := range []struct{ named, args, want string }{
		{"", "run .", "judge --help|recorder run ."},
		{"", "test ./...", "judge --help|recorder test ./..."},
		{"", "test -gorace other .", "recorder test -gorace other ."},
		{"", "run -gorace=other .", "recorder run -gorace=other ."},
		{"other", "run .", "recorder run ."},
		{"", "help run", "recorder help run"},
		{"", "build -o x .", "recorder build -o x ."},
		{"broken", "run .", "judge --help"},
	} {
		want := 0
		if c.named == "broken" {
			l.write(t, "broken", "")
			c.named, want = "", 3
		}
		if got, status := l.run(t, c.args, "GOREC_JUDGE="+c.named); got != c.want || status != want {
			t.Errorf("%s: %s, status %d", c.args, got, status)
		}
	}
}
