package main

import (
	"bytes"
	"encoding/json"
	"flag"
	"fmt"
	"io"
	"os"
	"os/exec"
	"path/filepath"
	"regexp"
	"sort"
	"strings"

	"gorace.local/recorder/internal/process"
	"gorace.local/recorder/internal/report"
)

// test has go test run each package's tests by gorec exec, and answers one status for all.
func (s *session) test() (int, error) {
	for _, word := range s.flags {
		if word == "-c=true" && s.kept != "" { // -o is go test's
			s.flags = append(s.flags, "-o="+s.kept)
			s.kept = ""
		}
	}
	if err := s.begin(); err != nil {
		return 0, err
	}
	if err := s.findGo(); err != nil {
		return 0, err
	}
	verdicts, err := os.Create(filepath.Join(s.keeper.Folder, "verdicts"))
	if err != nil {
		return 0, err
	}
	defer verdicts.Close()
	words, err := s.execWords(verdicts.Name())
	if err != nil {
		return 0, err
	}
	status, err := s.goTest(s.goCommand("test", append([]string{"-exec=" + words}, s.rest...)...))
	if err != nil {
		return 0, err
	}
	return statusOfAll(verdicts, status)
}

// execWords are those by which go test runs tests: gorec exec, with the flags that were given.
func (s *session) execWords(verdicts string) (string, error) {
	program, err := os.Executable()
	if err != nil {
		return "", err
	}
	base, err := os.Getwd()
	if err != nil {
		return "", err
	}
	for _, path := range []*string{&s.kept, &s.log} {
		if *path, err = keptIn(*path); err != nil {
			return "", err
		}
	}
	words := []string{program, "exec", "-base=" + base, "-verdicts=" + verdicts, "-gorace=" + strings.Join(s.judge.words, " ")}
	if s.goEnv != nil { // which the tests' own environment doesn't say
		words = append([]string{"env", "-u", "CGO_ENABLED"}, words...)
	}
	s.own.Visit(func(f *flag.Flag) {
		if _, isGo := f.Value.(*goFlag); !isGo && f.Name != "gorace" {
			words = append(words, "-"+f.Name+"="+f.Value.String())
		}
	})
	return quoted(words)
}

// quoted are words as the command go reads them.
func quoted(words []string) (string, error) {
	all := ""
	for _, word := range words {
		quote := "'"
		if strings.Contains(word, quote) {
			quote = `"`
		}
		if strings.Contains(word, quote) {
			return "", fmt.Errorf("the word %s has both quotes, which the command go can't be told", word)
		}
		all += quote + word + quote + " "
	}
	return all, nil
}

// keptIn is where traces or logs of packages are kept: in a folder, which is made if need be, unless a file is named as one.
func keptIn(path string) (string, error) {
	if path == "" {
		return "", nil
	}
	path, err := filepath.Abs(path)
	if err != nil || path == os.DevNull || filepath.Ext(path) != "" && !isFolder(path) {
		return path, err
	}
	return path, os.MkdirAll(path, 0o755)
}

var notBuilt = regexp.MustCompile(`(?:^|"Output":")FAIL(?:\t|\\t).*\[(?:build|setup) failed\]`)

// goTest runs go test, and passes on what it tells. It answers failed where go test did, and unusable where a package wasn't built.
func (s *session) goTest(cmd *exec.Cmd) (status int, err error) {
	err = piped(cmd, func(line []byte) error {
		if notBuilt.Match(line) {
			status = unusable
		}
		_, err := s.out.Write(line)
		return err
	}, func() error { return s.keeper.Run(cmd, process.Go) })
	if cmd.ProcessState == nil {
		return 0, err
	}
	if err != nil {
		status = worse(failed, status)
	}
	return status, nil
}

// statusOfAll is the worst status of packages, which are told of in their order, and of go test. If that failed, though no
// package's tests did, something else was wrong.
func statusOfAll(verdicts io.Reader, ofGo int) (int, error) {
	var all []verdict
	for in := json.NewDecoder(verdicts); in.More(); {
		var v verdict
		if err := in.Decode(&v); err != nil {
			return 0, fmt.Errorf("the verdicts: %w", err)
		}
		all = append(all, v)
	}
	sort.Slice(all, func(i, j int) bool { return all[i].Package < all[j].Package })
	status := 0
	for _, v := range all {
		status = worse(status, v.Status)
		fmt.Print(v.Report)
		if told := v.told(); told != "" {
			fmt.Fprintf(os.Stderr, "gorec: %s: %s\n", v.Package, told)
		}
	}
	if ofGo == failed && (status == 0 || status == cutOff) {
		return unusable, nil
	}
	return worse(status, ofGo), nil
}

// told says in a line what go test doesn't of a package, "" if that is nothing.
func (v *verdict) told() string {
	switch {
	case v.Status == racing && v.Predicted > 0:
		return fmt.Sprintf("races: %d, predicted: %d", v.Races, v.Predicted)
	case v.Status == racing:
		return fmt.Sprintf("races: %d", v.Races)
	case v.Status == unusable:
		return "not judged"
	case v.Cut != "":
		return "the trace is cut off: " + v.Cut
	case v.Status != 0 && v.Status != failed:
		return fmt.Sprintf("the judge ended with %d", v.Status)
	}
	return ""
}

// runTests runs tests of gorec test, or of go test, which reads their output. It answers their own status if they failed, or else
// that of the judge.
func (s *session) runTests() (int, error) {
	results := newTestOutput(s.out, s.args)
	var told bytes.Buffer
	s.out, s.piped = io.MultiWriter(s.out, &told), results.line
	r, err := s.repeat()
	if err != nil {
		r = &run{verdict: verdict{Status: unusable}}
	}
	results.end(r)
	r.Package = s.path
	if r.Status == racing && s.keeper.Interrupted() { // go test tells no output of a package then
		r.Report = told.String()
	}
	if left := s.leave(&r.verdict); err == nil {
		err = left
	}
	switch { // a trace that is cut off is no failure
	case err != nil:
		return 0, err
	case r.exit != 0:
		return r.exit, nil
	case r.Status == cutOff:
		return 0, nil
	}
	return r.Status, nil
}

// leave leaves a verdict for gorec test, after those of other packages.
func (s *session) leave(v *verdict) error {
	if s.verdicts == "" {
		return nil
	}
	f, err := os.OpenFile(s.verdicts, os.O_APPEND|os.O_WRONLY, 0)
	if err != nil {
		return err
	}
	defer f.Close()
	return json.NewEncoder(f).Encode(v)
}

// A testOutput passes the output of tests on. Their last word, PASS, waits for the verdict, with the coverage after it.
type testOutput struct {
	to     io.Writer
	tells  bool   // each test that begins is told, as by -v
	mark   string // before the lines of package testing, as go test -json has them
	held   []byte
	failed map[string]bool // tests that are told to have failed
}

// newTestOutput begins with the words for a program of tests.
func newTestOutput(to io.Writer, words []string) *testOutput {
	t := &testOutput{to: to, failed: map[string]bool{}}
	for _, word := range words {
		if name, value, _ := cutFlag(word); name == "test.v" {
			t.tells = value != "false"
			if value == "test2json" {
				t.mark = "\x16"
			}
		}
	}
	return t
}

var failedTest = regexp.MustCompile(`^\x16?\s*--- FAIL: (\S+) \(`)

// line takes a line of the tests.
func (t *testOutput) line(line []byte) error {
	isPass := string(line) == t.mark+"PASS\n"
	if len(t.held) > 0 && (isPass || !bytes.HasPrefix(line, []byte("coverage: "))) { // what is held wasn't the last word
		if _, err := t.to.Write(t.held); err != nil {
			return err
		}
		t.held = nil
	}
	if isPass || len(t.held) > 0 {
		t.held = append(t.held, line...)
		return nil
	}
	if m := failedTest.FindSubmatch(line); m != nil {
		t.failed[string(m[1])] = true
	}
	_, err := t.to.Write(line)
	return err
}

// end tells the result after the verdict on a run: which tests failed by their races, and that not all is well.
func (t *testOutput) end(r *run) {
	t.tellTests(r.reports)
	if r.Status != 0 && r.Status != cutOff {
		t.held = bytes.Replace(t.held, []byte("PASS\n"), []byte("FAIL\n"), 1)
	}
	t.to.Write(t.held)
}

// tellTests tells that tests failed by their races, and the tests above them, as package testing tells of those that fail. With -v
// each of them begins again, since it was told to have passed.
func (t *testOutput) tellTests(reports []*report.Report) {
	races := map[string]string{} // by test
	for _, o := range reports {
		for _, r := range o.All {
			a, b := &r.Accesses[0], &r.Accesses[1]
			for _, name := range r.Tests() {
				for i := range name {
					if name[i] == '/' {
						races[name[:i]] += ""
					}
				}
				races[name] += indentOf(name) +
					fmt.Sprintf("    race on %s: %s at %s, %s at %s\n", r.Variable, a.Kind, a.Place, b.Kind, b.Place)
			}
		}
	}
	var names []string
	for name := range races {
		if !t.failed[name] { // for its own reasons
			names = append(names, name)
		}
	}
	sort.Strings(names)
	if t.tells { // all begin before one ends, since what is told of a test ends with the one above it
		for _, name := range names {
			fmt.Fprintf(t.to, "%s=== RUN   %s\n%s", t.mark, name, races[name])
		}
	}
	for _, name := range names {
		fmt.Fprintf(t.to, "%s%s--- FAIL: %s (0.00s)\n", t.mark, indentOf(name), name)
		if !t.tells {
			fmt.Fprint(t.to, races[name])
		}
	}
}

// indentOf is what package testing puts before lines on a subtest.
func indentOf(name string) string { return strings.Repeat("    ", strings.Count(name, "/")) }
