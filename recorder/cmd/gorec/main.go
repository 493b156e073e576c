// Gorec records runs of Go programs as traces, and has gorace judge them. Nothing of it is
// proved.
//
// A command's words are taken apart in flags.go. run and test find the Go of the folder (build.go), make the overlay with the
// hooks (internal/patch), and run the command go; of tests that runs exec (session.go, tests.go). repeat calls once, where record runs the
// program, while follow (run.go) reads its log along and has judgeSegment (segments.go) judge each segment: judgeTrace writes a
// trace, and ask (judge.go) runs gorace on it. What that reports is read and told by internal/report. keep (tracefile.go) keeps the
// trace, and tellTrace names it.
package main

import (
	"errors"
	"flag"
	"fmt"
	"io"
	"os"

	"gorace.local/recorder/internal/process"
)

// version is that of the repository's CHANGELOG.md.
const version = "gorec 0.1.0 (not proved)\n"

// The statuses of gorec itself. gorace has none of them but unusable, which is that of its
// usage too, and racing, which it gives where there are data races.
const (
	unusable = 3
	cutOff   = 20
	failed   = 21
	racing   = 66
)

// A command is one of gorec's.
type command struct {
	name, words, about, more string
	topics                   []string                      // of go help: the flags of the command go that it takes too
	do                       func(s *session) (int, error) // answers a status, or an error, which is told and has status unusable
}

// commands are in the order in which help tells them.
var commands = []command{
	{
		name: "run", words: "[flags] PACKAGE [ARGUMENTS]", about: "runs a program, and has its trace judged",
		more: `
The package may be named by its files. What follows it goes to the program. Other flags are those of go build.
` + statuses,
		topics: []string{"build"}, do: (*session).runPackage,
	},
	{
		name: "test", words: "[flags] [flags of go test] [PACKAGES] [flags of go test and of the tests]",
		about: "runs go test, and has the traces of the tests judged",
		more: `
A package with data races is reported as one that fails. All words but these flags are go test's: gorec's own stand in
front of the packages.
` + statuses,
		topics: []string{"build", "test", "testflag"}, do: (*session).test,
	},
	{
		name: "exec", words: "[flags] PROGRAM [ARGUMENTS]",
		about: "runs a program that gorec build has built, and has its trace judged",
		more: `
Of tests, the status is that of the tests, and 66 if they passed and there are data races, so that
go test -exec 'gorec exec' reports a package with races as one that fails.
` + statuses,
		do: (*session).exec,
	},
	{
		name: "build", words: "[flags] -o PROGRAM PACKAGE", about: "builds a program to be run elsewhere",
		more: `
The program writes its log to the file that GOREC_LOG names. gorec trace makes its trace, and gorec exec runs it as
gorec run does. Other flags are those of go build, with -tests those of go test.
`,
		topics: []string{"build", "testflag"}, do: (*session).build,
	},
	{
		name: "trace", words: "[flags] LOG PROGRAM", about: "writes the trace of a log, and on standard error where that is cut off",
		do: (*session).printTrace,
	},
}

const statuses = `
The status of run and test: 66 data races; 0 clean, and the program ended with 0; 20 clean up to
where the trace is cut off; 21 clean, but the program or a test failed; 3 nothing could be judged;
else gorace's. Of several runs the first of these that one has: 66, gorace's, 3, 21, 20, 0.
Nothing of gorec is proved: a report is as good as the recording.
`

func main() {
	status, err := dispatch(os.Args[1:])
	if err != nil {
		fmt.Fprintln(os.Stderr, "gorec: "+err.Error())
		status = unusable
	}
	os.Exit(status)
}

func dispatch(args []string) (int, error) {
	if len(args) == 0 {
		overview(os.Stderr)
		return unusable, nil
	}
	switch args[0] {
	case "version", "-version", "--version":
		fmt.Print(version)
		return 0, nil
	case "help", "-h", "-help", "--help":
		if len(args) == 1 {
			overview(os.Stdout)
			return 0, nil
		}
		args = []string{args[1], "-h"}
	}
	for _, c := range commands {
		if c.name == args[0] {
			return c.run(args[1:])
		}
	}
	return 0, fmt.Errorf("there is no command %s (gorec help lists them)", args[0])
}

func (c command) run(args []string) (int, error) {
	s := newSession(c.name)
	err := s.parse(c, args)
	if errors.Is(err, flag.ErrHelp) {
		fmt.Printf("usage: gorec %s %s\n\n%s\n%s\nThe flags:\n", c.name, c.words, c.about, c.more)
		flags := flag.NewFlagSet(c.name, flag.ContinueOnError)
		flags.SetOutput(os.Stdout)
		s.define(c.name, flags)
		flags.PrintDefaults()
		return 0, nil
	}
	if err != nil {
		return 0, fmt.Errorf("%s: %w (gorec help %s)", c.name, err, c.name)
	}
	if s.keeper, err = process.New(); err != nil {
		return 0, err
	}
	defer s.keeper.End()
	return c.do(s)
}

func overview(w io.Writer) {
	fmt.Fprint(w, "gorec records a run of a Go program as a trace, and has gorace judge it.\n\n")
	for _, c := range commands {
		fmt.Fprintf(w, "  gorec %-5s %s\n        %s\n", c.name, c.words, c.about)
	}
	fmt.Fprint(w, "  gorec help [COMMAND], gorec version\n", statuses)
}

// worse is the one of two statuses that a user has to hear of: gorace's come right after racing.
func worse(a, b int) int {
	weight := map[int]int{racing: 1, unusable: -1, failed: -2, cutOff: -3, 0: -4}
	if weight[b] > weight[a] {
		return b
	}
	return a
}
