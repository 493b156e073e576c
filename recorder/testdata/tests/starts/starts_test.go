// clean

// Package starts has tests that start themselves and the command go.
package starts

import (
	"os"
	"os/exec"
	"path/filepath"
	"runtime"
	"strings"
	"testing"
)

var racy int

func TestItself(t *testing.T) {
	if os.Getenv("AGAIN") != "" {
		done := make(chan bool)
		go func() { racy++; done <- true }()
		racy++
		<-done
		return
	}
	cmd := exec.Command(os.Args[0], "-test.run=^TestItself$")
	cmd.Env = append(os.Environ(), "AGAIN=1")
	if out, err := cmd.CombinedOutput(); err != nil || string(out) != "PASS\n" {
		t.Errorf("%v\n%s", err, out)
	}
}

// TestGo: what a test builds is as ever, by the Go that is installed.
func TestGo(t *testing.T) {
	out, err := exec.Command("go", "env", "GOROOT").Output()
	if err != nil || strings.TrimSpace(string(out)) != runtime.GOROOT() {
		t.Errorf("%s, %v", out, err)
	}
	dir := t.TempDir()
	for name, text := range map[string]string{
		"go.mod":   "module example.com/started\n",
		"main.go":  "package main\n\nvar word = \"plain\"\n\nfunc main() { print(word) }\n",
		"other.go": "//go:build race\n\npackage main\n\nfunc init() { word = \"other\" }\n",
	} {
		if err := os.WriteFile(filepath.Join(dir, name), []byte(text), 0o644); err != nil {
			t.Fatal(err)
		}
	}
	cmd := exec.Command("go", "run", ".")
	cmd.Dir = dir
	if out, err := cmd.CombinedOutput(); err != nil || string(out) != "plain" {
		t.Errorf("%s, %v", out, err)
	}
}
