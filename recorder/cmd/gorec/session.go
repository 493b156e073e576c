package main

import (
	"debug/buildinfo"
	"errors"
	"fmt"
	"io"
	"os"
	"os/exec"
	"path/filepath"
	"strconv"
	"strings"
	"syscall"
	"time"

	"gorace.local/recorder/internal/process"
)

// A session does a command of gorec.
type session struct {
	options
	words
	keeper *process.Keeper
	judge  *judge

	goFlags []string // of builds
	goEnv   []string // nil for gorec's own

	path   string // the program's import path
	name   string // of its files
	file   string
	args   []string
	dir    string // in which it runs, "" for the one that gorec is in
	isTest bool
	inTurn bool // its parallel tests run one after another

	out, notes io.Writer  // for the reports, and for what else is told
	piped      lineWriter // takes the program's output, which else goes where gorec's does
}

func newSession(command string) *session {
	s := &session{words: words{own: newFlagSet(command)}}
	s.define(command, s.own)
	return s
}

// begin finds what is needed to have runs judged, before anything runs.
func (s *session) begin() (err error) {
	if err := s.check(); err != nil {
		return err
	}
	s.out, s.notes = s.keeper.Output(os.Stdout), os.Stderr
	s.judge, err = findJudge(s.gorace)
	return err
}

// runPackage builds a program, records runs of it, and has them judged.
func (s *session) runPackage() (status int, err error) {
	if len(s.rest) == 0 {
		return 0, errNoPackage
	}
	if err := s.begin(); err != nil {
		return 0, err
	}
	n := 1
	for n < len(s.rest) && strings.HasSuffix(s.rest[n-1], ".go") && strings.HasSuffix(s.rest[n], ".go") {
		n++ // a program that is named by several files
	}
	if s.file, err = s.buildProgram(s.rest[:n]); err != nil {
		return 0, err
	}
	s.args = s.rest[n:]
	s.isCalled(s.importPath())
	if first := s.rest[0]; strings.HasSuffix(first, ".go") {
		s.path = strings.TrimSuffix(filepath.Base(first), ".go")
		if dir, err := filepath.Abs(filepath.Dir(first)); err == nil {
			s.path = filepath.Base(dir) + "_" + s.path
		}
		s.name = s.path
	}
	return s.runProgram()
}

// importPath is that of the program. Tests of Go before 1.24 don't tell it, but run in the folder of their package.
func (s *session) importPath() string {
	path := filepath.Base(s.file)
	if info, err := buildinfo.ReadFile(s.file); err == nil && info.Path != "" {
		path = info.Path
	} else if s.isTest {
		if out, err := exec.Command("go", "list", "-find").Output(); err == nil {
			path = strings.TrimSpace(string(out))
		}
	}
	return strings.TrimSuffix(path, ".test")
}

// isCalled notes the program's import path. In the names of files a/b and a_b differ.
func (s *session) isCalled(path string) {
	s.path, s.name = path, strings.NewReplacer("_", "__", "/", "_").Replace(path)
	if s.isTest {
		s.name += ".test"
	}
}

// exec runs a program, and answers its status, or that of the judge. gorec itself goes to the folder that places are told from.
func (s *session) exec() (int, error) {
	if len(s.rest) == 0 {
		return 0, errors.New("no program was named")
	}
	if s.verdicts != "" {
		go s.endWithParent()
	}
	err := s.begin()
	if err == nil {
		s.file, err = exec.LookPath(s.rest[0])
	}
	if err == nil {
		s.file, err = filepath.Abs(s.file)
	}
	if err != nil {
		return 0, err
	}
	s.args, s.isTest = s.rest[1:], strings.HasSuffix(s.file, ".test")
	for _, word := range s.args {
		switch name, value, _ := cutFlag(word); {
		case name == "test.list": // none is run
			s.keeper.End()
			return unusable, syscall.Exec(s.file, s.rest, os.Environ())
		case strings.HasPrefix(name, "test."):
			s.isTest = true
			s.inTurn = s.inTurn || name == "test.parallel" && value == "1"
		}
	}
	s.isCalled(s.importPath())
	if s.base != "" {
		if s.dir, err = os.Getwd(); err == nil {
			err = os.Chdir(s.base)
		}
	}
	switch {
	case err != nil:
		return 0, err
	case s.isTest:
		return s.runTests()
	}
	return s.runProgram()
}

// endWithParent has gorec end with go test, which has started it. What it has started itself is killed then.
func (s *session) endWithParent() {
	for parent := os.Getppid(); os.Getppid() == parent; {
		time.Sleep(100 * time.Millisecond)
	}
	s.keeper.End()
	os.Exit(unusable)
}

// runProgram runs a program that is no test.
func (s *session) runProgram() (int, error) {
	end := func(*run) {}
	if s.json {
		end = s.writeJSON()
	}
	r, err := s.repeat()
	if err != nil {
		return 0, err
	}
	end(r)
	return r.Status, nil
}

// repeat runs a program until a race is found, as often as is wanted. It answers the last run, with the worst status.
func (s *session) repeat() (*run, error) {
	if s.runs > 1 && s.seed == "" {
		s.seed = fmt.Sprint(uint32(time.Now().UnixNano())>>1 | 1)
	}
	if s.keepsFile() { // it is made before the run, which may be long
		if err := os.WriteFile(s.kept, nil, 0o666); err != nil {
			return nil, err
		}
	}
	seed, _ := strconv.ParseUint(s.seed, 10, 32) // which was checked
	for worst, i := 0, 1; ; i++ {
		r, err := s.once(uint32(seed))
		if err != nil {
			return nil, err
		}
		worst = worse(r.Status, worst)
		if s.runs > 1 {
			fmt.Fprintf(s.notes, "gorec: run %d of at most %d, with seed %s\n", i, s.runs, r.Seed)
		}
		if r.Status == racing || i == s.runs || s.keeper.Interrupted() {
			r.Status = worst
			return r, nil
		}
		if seed != 0 {
			seed++
		}
	}
}

// once runs a program, and has its trace judged.
func (s *session) once(seed uint32) (*run, error) {
	r, err := s.newRun(s.createLog())
	if err != nil {
		return nil, err
	}
	defer r.close()
	if r.reader.SetSeed(seed); s.seed != "" {
		r.Seed = fmt.Sprint(seed)
	}
	ended := make(chan struct{})
	var failed error
	go func() {
		defer close(ended)
		failed = r.record()
	}()
	if err = r.follow(ended); failed != nil {
		err = failed
	}
	switch {
	case err == nil:
	case r.Status == racing: // in a segment before
		fmt.Fprintf(s.notes, "gorec: %v\n", err)
	default:
		if r.segments > 0 && s.keepsFile() {
			r.keep()
		}
		return nil, err
	}
	r.keep()
	r.tellTrace()
	return r, nil
}

// record runs the program; its trace is judged however it ends.
func (r *run) record() error {
	cmd := exec.Command(r.file, r.args...)
	cmd.Dir = r.dir
	cmd.Env = append(cmd.Environ(), "GOREC_LOG="+r.reader.Path())
	cmd.Stdin = os.Stdin
	run := func() error { return r.keeper.Run(cmd, process.Program) }
	began := time.Now()
	var err error
	if r.piped != nil {
		err = piped(cmd, r.piped, run)
	} else {
		cmd.Stdout, cmd.Stderr = os.Stdout, os.Stderr
		err = run()
	}
	r.elapsed = time.Since(began)
	if r.keeper.Interrupted() {
		fmt.Fprintln(r.notes, "gorec: what was recorded is judged; one more signal ends gorec at once")
	}
	if err == nil || cmd.ProcessState == nil {
		return err
	}
	r.Ended, r.exit = err.Error(), cmd.ProcessState.ExitCode()
	if s, is := cmd.ProcessState.Sys().(syscall.WaitStatus); is && s.Signaled() {
		r.exit = 128 + int(s.Signal())
	}
	if !r.isTest {
		fmt.Fprintln(r.notes, "gorec: the program ended with "+r.Ended)
	}
	return nil
}
