package main

import (
	"os"
	"path/filepath"
	"strings"
	"testing"
)

// TestShownJudge: a judge that the PATH has too is called by its name.
func TestShownJudge(t *testing.T) {
	dir := t.TempDir()
	for _, name := range []string{"gorace", "other"} {
		if err := os.WriteFile(filepath.Join(dir, name), []byte("#!/bin/sh\n"), 0o755); err != nil {
			t.Fatal(err)
		}
	}
	link := filepath.Join(t.TempDir(), "gorace")
	if err := os.Symlink(filepath.Join(dir, "gorace"), link); err != nil {
		t.Fatal(err)
	}
	t.Setenv("PATH", filepath.Dir(link))
	for _, c := range []struct{ flag, want string }{{dir + "/gorace", "gorace"}, {dir + "/other", shown(dir + "/other")}} {
		if j, err := findJudge(c.flag); err != nil || j.shown != c.want {
			t.Errorf("%s: %+v, %v", c.flag, j, err)
		}
	}
}

// TestFindJudge: a command is split at its blanks, unless it is the path of a file.
func TestFindJudge(t *testing.T) {
	blank := filepath.Join(t.TempDir(), "a b")
	for _, path := range []string{blank + "/gorace", filepath.Dir(blank) + "/gorace"} {
		if err := os.MkdirAll(filepath.Dir(path), 0o755); err != nil {
			t.Fatal(err)
		}
		if err := os.WriteFile(path, []byte("#!/bin/sh\n"), 0o755); err != nil {
			t.Fatal(err)
		}
	}
	plain := filepath.Dir(blank) + "/gorace"
	for _, c := range []struct{ flag, want string }{
		{plain, plain},
		{"  " + plain + "  -x  y ", plain + "|-x|y"},
		{blank + "/gorace", blank + "/gorace"},
		{blank + "/none", `no judge: exec: "` + filepath.Dir(blank) + `/a": stat ` + filepath.Dir(blank) + "/a: no such file or directory"},
	} {
		got := ""
		if j, err := findJudge(c.flag); err != nil {
			got = err.Error()
		} else {
			got = strings.Join(j.words, "|")
		}
		if got != c.want {
			t.Errorf("%q: got %s", c.flag, got)
		}
	}
}
