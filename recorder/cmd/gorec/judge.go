package main

import (
	"errors"
	"fmt"
	"io"
	"os"
	"os/exec"
	"path/filepath"
	"strings"

	"gorace.local/recorder/internal/process"
	"gorace.local/recorder/internal/report"
)

// A judge is the command gorace.
type judge struct {
	words []string
	shown string // as a user may type it
}

// findJudge finds what the flag or GOREC_JUDGE says, else the program beside this one, else
// that on the PATH.
func findJudge(named string) (*judge, error) {
	if named == "" {
		named = os.Getenv("GOREC_JUDGE")
	}
	words := []string{named}
	if _, err := exec.LookPath(named); err != nil { // else its path may have blanks
		words = strings.Fields(named)
	}
	if len(words) == 0 {
		words = []string{"gorace"}
		own, _ := os.Executable()
		if beside, err := exec.LookPath(filepath.Join(filepath.Dir(own), "gorace")); err == nil {
			words[0] = beside
		}
	}
	path, err := exec.LookPath(words[0])
	switch {
	case err != nil && words[0] == "gorace":
		return nil, errors.New("no judge: gorace is neither beside gorec nor on the PATH; -gorace CMD or GOREC_JUDGE names it")
	case err != nil:
		return nil, fmt.Errorf("no judge: %w", err)
	case len(words) == 1:
		named = shownJudge(path)
	}
	words[0], err = filepath.Abs(path) // as of tests, which run elsewhere
	return &judge{words, named}, err
}

// shownJudge is how a user may call a judge: by its name where the PATH has it.
func shownJudge(path string) string {
	onPath, _ := exec.LookPath("gorace")
	a, noneThere := os.Stat(onPath)
	b, err := os.Stat(path)
	if noneThere == nil && err == nil && os.SameFile(a, b) {
		return "gorace"
	}
	return shown(path)
}

// turnedFlag is the judge's flag for orders in which critical sections and messages change places.
const turnedFlag = "--turned"

// ask has the judge judge a trace.
func (r *run) ask(trace *os.File) (*report.Report, error) {
	command := append([]string(nil), r.judge.words...)
	if r.predict {
		command = append(command, "predict")
	} else {
		command = append(command, "check")
	}
	if r.turned {
		command = append(command, turnedFlag)
	}
	var output strings.Builder
	cmd := exec.Command(command[0], command[1:]...)
	cmd.Stdin, cmd.Stdout, cmd.Stderr = trace, &output, r.notes
	err := r.keeper.Run(cmd, process.Judge)
	o := report.Read(output.String())
	var ended *exec.ExitError
	switch {
	case errors.As(err, &ended) && ended.ExitCode() > 0:
		o.Status = ended.ExitCode()
	case err == nil && !o.IsClean:
		err = fmt.Errorf("%s ended with 0 and didn't say that it is clean", r.judge.shown)
		fallthrough
	case err != nil:
		io.WriteString(r.out, o.Text)
		return nil, fmt.Errorf("the trace wasn't judged: %w", err)
	}
	return o, nil
}
