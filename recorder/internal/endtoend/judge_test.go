// Package endtoend has tests of the tool gorec as its users run it. Traces are judged by
// gorace, which the flag -judge names.
package endtoend

import (
	"flag"
	"os"
	"os/exec"
	"path/filepath"
	"strings"
	"testing"
)

var judgeFlag = flag.String("judge", defaultJudge(), "the command gorace; or 'unproved', which builds it before any proof, by rt try in crates/gorace")

const root = "../.." // the recorder's folder

// requireJudge fails a test where there is none, unless the tests are to be short.
func requireJudge(t *testing.T) {
	t.Helper()
	switch {
	case *judgeFlag != "":
	case testing.Short():
		t.Skip("no judge")
	default:
		t.Fatal("no judge: name the command gorace by -judge or GOREC_JUDGE, or put it on the PATH; -short leaves this test out")
	}
}

// defaultJudge is what GOREC_JUDGE names, else the gorace on the PATH. gorec's tests name their
// own judges, so it is taken out of the environment.
func defaultJudge() string {
	if named := os.Getenv("GOREC_JUDGE"); named != "" {
		os.Unsetenv("GOREC_JUDGE")
		return named
	}
	path, _ := exec.LookPath("gorace")
	return path
}

// gorec is the tool, built once.
var gorec string

func TestMain(m *testing.M) {
	flag.Parse()
	cache, err := exec.Command("go", "env", "GOCACHE").Output()
	if err == nil {
		err = os.Setenv("GOCACHE", strings.TrimSpace(string(cache))) // for tests with a home of their own
	}
	if err != nil {
		panic(err)
	}
	dir, err := os.MkdirTemp("", "gorec-test")
	if err != nil {
		panic(err)
	}
	os.Setenv("XDG_CACHE_HOME", filepath.Join(dir, "cache")) // for the traces that are kept
	gorec = filepath.Join(dir, "gorec")
	build := exec.Command("go", "build", "-o", gorec, "./cmd/gorec")
	build.Dir = root
	if out, err := build.CombinedOutput(); err != nil {
		panic(string(out))
	}
	status := m.Run()
	os.RemoveAll(dir)
	os.Exit(status)
}

// judgeAll has gorace check each of the traces, and answers the reports by the same names.
func judgeAll(t *testing.T, traces map[string]string) map[string]string {
	t.Helper()
	return askAll(t, "check", traces)
}

// askAll has gorace do a command with each of the traces.
func askAll(t *testing.T, command string, traces map[string]string) map[string]string {
	t.Helper()
	if *judgeFlag == "unproved" {
		return askUnproved(t, command, traces)
	}
	reports := map[string]string{}
	words := strings.Fields(*judgeFlag)
	for name, path := range traces {
		in, err := os.Open(path)
		if err != nil {
			t.Fatal(err)
		}
		cmd := exec.Command(words[0], append(words[1:], strings.Fields(command)...)...)
		cmd.Stdin = in
		out, err := cmd.Output()
		in.Close()
		if _, ended := err.(*exec.ExitError); err != nil && !ended {
			t.Fatal(err)
		}
		reports[name] = string(out)
	}
	return reports
}
