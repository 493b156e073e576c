package endtoend

import (
	"os"
	"os/exec"
	"path/filepath"
	"regexp"
	"strings"
	"testing"
)

const page = root + "/../docs/GETTING_STARTED.md"

// block is one of the page's: a file, or commands with their outputs.
type block struct{ kind, text string }

// counts differ from run to run: a goroutine may not have come to its end where main does.
var counts = regexp.MustCompile(`\d+ (events|records|accesses)|\d+\.\d+s`)

func readPage(t *testing.T) []block {
	t.Helper()
	b, err := os.ReadFile(page)
	if err != nil {
		t.Fatal(err)
	}
	var blocks []block
	for _, m := range regexp.MustCompile("(?ms)^```(\\w+)\n(.*?)^```$").FindAllStringSubmatch(string(b), -1) {
		blocks = append(blocks, block{m[1], m[2]})
	}
	return blocks
}

// script is a shell's input that does what a reader does, and the output that it wants.
func script(blocks []block) (input, output string) {
	for _, b := range blocks {
		if b.kind != "console" { // a file, of which the first line has the name
			name, _, _ := strings.Cut(strings.TrimLeft(b.text, "/# "), "\n")
			input += "mkdir -p $(dirname " + name + ") && cat > " + name + " <<'END'\n" + b.text + "END\n"
			continue
		}
		for _, line := range strings.Split(strings.TrimSuffix(b.text, "\n"), "\n") {
			if command := strings.TrimPrefix(line, "$ "); command != line {
				input += command + "\n"
			} else {
				output += line + "\n"
			}
		}
	}
	return input, output
}

// reader is somebody who follows the page in a clone of their own.
type reader struct{ home, clone string }

func newReader(t *testing.T) reader {
	t.Helper()
	r := reader{t.TempDir(), t.TempDir()}
	here, err := filepath.Abs(root)
	if err == nil {
		err = os.Symlink(here, filepath.Join(r.clone, "recorder"))
	}
	if err == nil {
		judge := "#!/bin/sh\nexec " + *judgeFlag + " \"$@\"\n"
		err = os.WriteFile(filepath.Join(r.clone, "gorace"), []byte(judge), 0o755)
	}
	var launcher []byte
	if err == nil {
		launcher, err = os.ReadFile(filepath.Join(here, "..", "gorec"))
	}
	if err == nil {
		err = os.WriteFile(filepath.Join(r.clone, "gorec"), launcher, 0o755)
	}
	if err != nil {
		t.Fatal(err)
	}
	return r
}

func (r reader) follow(t *testing.T, input string) string {
	t.Helper()
	cmd := exec.Command("bash")
	cmd.Dir = r.clone
	cmd.Stdin = strings.NewReader(input)
	cmd.Env = append(os.Environ(), "HOME="+r.home, "XDG_CACHE_HOME=")
	out, err := cmd.CombinedOutput()
	if err != nil {
		t.Fatalf("%v\n%s", err, out)
	}
	return string(out)
}

// TestPage follows the page and compares what its commands print. A judge that takes minutes
// for each trace is too slow for it.
func TestPage(t *testing.T) {
	t.Parallel()
	requireJudge(t)
	if *judgeFlag == "unproved" {
		t.Skip("the page is followed with a built judge")
	}
	input, want := script(readPage(t))
	got := newReader(t).follow(t, input)
	if counts.ReplaceAllString(got, "N $1") != counts.ReplaceAllString(want, "N $1") {
		t.Errorf("the page says\n%s\nbut its commands print\n%s", want, got)
	}
}
