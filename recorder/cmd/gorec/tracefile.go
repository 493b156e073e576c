package main

import (
	"fmt"
	"os"
	"path/filepath"
	"regexp"
	"sort"
	"strings"
	"time"
)

// keptTraces is how many traces the cache folder has at most.
const keptTraces = 10

// keepsFile reports whether -o names a file for the trace.
func (s *session) keepsFile() bool { return s.kept != "" && s.kept != os.DevNull && !isFolder(s.kept) }

// isFolder says whether a folder has this path.
func isFolder(path string) bool {
	st, err := os.Stat(path)
	return err == nil && st.IsDir()
}

// cacheFolder is that of the traces, or "" where there can't be one.
func cacheFolder() string {
	cache, err := os.UserCacheDir()
	folder := filepath.Join(cache, "gorec")
	if err != nil || os.MkdirAll(folder, 0o755) != nil {
		return ""
	}
	return folder
}

// keep keeps the trace of a run. That of tests which are clean is kept only in a file that -o names.
func (r *run) keep() {
	file := r.kept
	if !r.keepsFile() {
		folder := r.kept
		if folder == "" {
			folder = cacheFolder()
		}
		if folder == "" || folder == os.DevNull || r.Status == 0 && r.isTest {
			return
		}
		file = filepath.Join(folder, r.name+".gotrace")
	}
	text, err := os.ReadFile(r.trace)
	if err == nil {
		err = os.WriteFile(file, text, 0o666)
	}
	if err != nil {
		fmt.Fprintf(r.notes, "gorec: %v\n", err)
		return
	}
	r.Trace = file
	if r.kept == "" {
		prune(filepath.Dir(file))
	}
}

// prune removes all but the newest traces of the cache folder.
func prune(folder string) {
	traces, _ := filepath.Glob(filepath.Join(folder, "*.gotrace"))
	age := func(i int) (t time.Time) {
		if st, err := os.Stat(traces[i]); err == nil {
			t = st.ModTime()
		}
		return t
	}
	sort.Slice(traces, func(i, j int) bool { return age(i).After(age(j)) })
	for i := keptTraces; i < len(traces); i++ {
		os.Remove(traces[i])
	}
}

// tellTrace names the trace, and how a race is drawn.
func (r *run) tellTrace() {
	switch {
	case r.Status == 0:
	case r.Trace == "":
		fmt.Fprintln(r.out, "gorec: the trace isn't kept; -o FILE keeps it")
	case r.first == nil:
		fmt.Fprintf(r.out, "gorec: the trace: %s\n", shown(r.Trace))
	default:
		trace, judge := shown(r.Trace), r.judge.shown
		if len(r.first.Races) > 0 {
			fmt.Fprintf(r.out, "gorec: to see why: %s draw %s < %s\n", judge, r.first.Races[0].Variable, trace)
		}
		if len(r.first.Predicted) > 0 {
			of, turned := r.first.Predicted[0].Variable, ""
			if r.turned {
				turned = " " + turnedFlag
			}
			fmt.Fprintf(r.out, "gorec: to see the other order: %s predict %s%s < %s | %s draw %s\n", judge, of, turned, trace, judge, of)
		}
	}
}

var plainWord = regexp.MustCompile(`^[-\w./@+,:=]+$`)

// shown is a path as it may be typed into a shell in this folder, in the shortest way.
func shown(path string) string {
	short := path
	if here, err := os.Getwd(); err == nil {
		if rel, err := filepath.Rel(here, path); err == nil && len(rel) < len(short) {
			short = rel
		}
	}
	home, err := os.UserHomeDir()
	rest := strings.TrimPrefix(path, home+"/")
	if err == nil && plainWord.MatchString(path) && rest != path && len(rest)+2 < len(short) {
		return "~/" + rest
	}
	if plainWord.MatchString(short) {
		return short
	}
	return "'" + strings.ReplaceAll(short, "'", `'\''`) + "'"
}
