package main

import (
	"errors"
	"fmt"
	"os"
	"os/exec"
	"path/filepath"
	"regexp"
	"strings"

	"gorace.local/recorder/internal/patch"
	"gorace.local/recorder/internal/process"
)

// findGo finds the Go of this folder, which its go.mod may name, and what its builds need beside the user's flags.
func (s *session) findGo() error {
	tool, err := patch.Find("go")
	if err != nil {
		return err
	}
	folder := cacheFolder()
	if folder == "" {
		folder = s.keeper.Folder
	}
	hooks, err := patch.Overlay(tool, filepath.Join(folder, "hooks"))
	if err != nil {
		return err
	}
	out, err := exec.Command("go", "env", "CGO_ENABLED", "CC", "GOFLAGS").Output()
	if err != nil {
		return fmt.Errorf("go env: %w", err)
	}
	values := strings.SplitN(string(out), "\n", 3)
	_, lacksC := exec.LookPath(strings.Split(values[1], " ")[0])
	if values[0] == "1" && lacksC != nil && os.Getenv("CGO_ENABLED") == "" { // from 1.20 on the command go looks itself
		s.goEnv = append(os.Environ(), "CGO_ENABLED=0")
	}
	s.goFlags, err = flagsWith(hooks, values[2], s.flags)
	return err
}

// keepsDebug are the flags of the linker that keep debugging information, which tells names, also after flags that
// leave it out, as go test's own. What isn't compressed is read faster.
const keepsDebug = "-s=false -w=false -compressdwarf=false"

// goWord is one of several words as the command go reads them: one that begins with a quote goes up to the next one.
var goWord = regexp.MustCompile(`'([^']*)'|"([^"]*)"|(\S+)`)

// isMerged has the flags of builds that gorec sets too.
var isMerged = map[string]bool{"tags": true, "overlay": true, "gcflags": true, "ldflags": true, "race": true}

// flagsWith are the flags of a build with the hooks. Those of GOFLAGS that gorec's would hide are merged into them; the command go
// itself takes the others.
func flagsWith(hooks *patch.Set, goflags string, user []string) ([]string, error) {
	last, all := map[string]string{}, map[string][]string{} // values of flags
	take := func(word string) (name string) {
		name, value, _ := cutFlag(word)
		name = strings.TrimPrefix(name, "test.")
		last[name], all[name] = value, append(all[name], value)
		return name
	}
	for _, m := range goWord.FindAllStringSubmatch(goflags, -1) {
		word := m[1] + m[2] + m[3]
		if err := refusal(word); err != nil {
			return nil, fmt.Errorf("GOFLAGS: %w", err)
		}
		take(word)
	}
	var others []string
	for _, word := range user {
		if !isMerged[take(word)] {
			others = append(others, word)
		}
	}
	flags, err := hooks.Flags(patch.Flags{Tags: last["tags"], Overlay: last["overlay"], Gcflags: all["gcflags"]}, "")
	if err != nil {
		return nil, err
	}
	flags = append(flags, "-race=false") // gorec looks for races itself
	for _, value := range append([]string{""}, all["ldflags"]...) {
		flags = append(flags, "-ldflags="+strings.TrimLeft(value+" "+keepsDebug, " "))
	}
	covers := all["cover"] != nil || all["coverprofile"] != nil || all["coverpkg"] != nil
	if covers && all["covermode"] == nil {
		flags = append(flags, "-covermode=atomic") // as with -race, since other counters race
	}
	return append(flags, others...), nil
}

// goCommand is the command go, with gorec's flags and the user's before other words.
func (s *session) goCommand(command string, others ...string) *exec.Cmd {
	cmd := exec.Command("go", append(append([]string{command}, s.goFlags...), others...)...)
	cmd.Stdout, cmd.Stderr, cmd.Env = os.Stdout, os.Stderr, s.goEnv
	return cmd
}

// errNoPackage is the mistake of those who name none.
var errNoPackage = errors.New("no package was named; . is this folder")

// build builds a program, or tests, to be run elsewhere.
func (s *session) build() (int, error) {
	switch {
	case len(s.rest) == 0:
		return 0, errNoPackage
	case s.kept == "":
		return 0, errors.New("-o has to name the program")
	}
	if err := s.findGo(); err != nil {
		return 0, err
	}
	command, words := "build", append([]string{"-o", s.kept}, s.rest...)
	if s.tests {
		command, words = "test", append([]string{"-c"}, words...)
	}
	if err := s.keeper.Run(s.goCommand(command, words...), process.Go); err != nil {
		return 0, fmt.Errorf("nothing was built: go %s: %w", command, err)
	}
	return 0, nil
}

// buildProgram builds the program that is named, and answers its file.
func (s *session) buildProgram(named []string) (string, error) {
	if err := s.findGo(); err != nil {
		return "", err
	}
	folder := filepath.Join(s.keeper.Folder, "built") + "/" // which go makes
	if err := s.keeper.Run(s.goCommand("build", append([]string{"-o", folder}, named...)...), process.Go); err != nil {
		return "", fmt.Errorf("nothing was run: go build: %w", err)
	}
	built, err := os.ReadDir(folder)
	switch {
	case err != nil:
		return "", err
	case len(built) > 1:
		return "", fmt.Errorf("%s and %s are programs both; name one", built[0].Name(), built[1].Name())
	}
	return folder + built[0].Name(), nil
}
