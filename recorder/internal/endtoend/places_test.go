package endtoend

import (
	"os"
	"os/exec"
	"path/filepath"
	"regexp"
	"sort"
	"strings"
	"testing"
)

// writeFiles writes files below a folder.
func writeFiles(t *testing.T, dir string, files map[string]string) {
	t.Helper()
	for name, text := range files {
		path := filepath.Join(dir, name)
		if err := os.MkdirAll(filepath.Dir(path), 0o755); err != nil {
			t.Fatal(err)
		}
		if err := os.WriteFile(path, []byte(text), 0o644); err != nil {
			t.Fatal(err)
		}
	}
}

const counting = "\n\nvar N int\n\nfunc Count() { c := make(chan bool); go func() { N++; c <- true }(); N++; <-c }\n"

// filesOf runs a program, and answers the files that its trace names.
func filesOf(t *testing.T, dir string, env ...string) string {
	t.Helper()
	trace := filepath.Join(t.TempDir(), "run.gotrace")
	out, errs, status := runWith(t, dir, append([]string{"PWD=" + dir}, env...), "run", "-all", "-gorace", stub(t), "-o", trace, ".")
	if status != 0 {
		t.Fatalf("status %d\n%s%s", status, out, errs)
	}
	text, err := os.ReadFile(trace)
	if err != nil {
		t.Fatal(err)
	}
	is := map[string]bool{}
	for _, m := range place.FindAllSubmatch(text, -1) {
		is[string(m[1])] = true
	}
	var files []string
	for f := range is {
		files = append(files, f)
	}
	sort.Strings(files)
	return strings.Join(files, " ")
}

// place is that of an event of a trace, in a file of the program's.
var place = regexp.MustCompile(`(?m) (\S+main\.go|main\.go):\d+$`)

// TestPlaces: a place is relative to the folder one is in, as the command go prints it, and no
// two files have one name.
func TestPlaces(t *testing.T) {
	t.Parallel()
	main := func(path string) string {
		return "package main\n\nimport \"" + path + "\"\n\nfunc main() { go util.Count(); util.Count() }\n"
	}
	util := "package util" + counting

	gopath := t.TempDir()
	writeFiles(t, gopath, map[string]string{"src/y/main.go": main("x/util"), "src/x/util/main.go": util})
	if got := filesOf(t, gopath+"/src/y", "GO111MODULE=off", "GOPATH="+gopath); got != "../x/util/main.go main.go" {
		t.Errorf("GOPATH mode: %s", got)
	}
	writeFiles(t, gopath, map[string]string{
		"src/z/go.mod": "module z/v2\n", "src/z/main/main.go": main("z/v2/util"), "src/z/util/main.go": util,
	})
	if got := filesOf(t, gopath+"/src/z/main", "GO111MODULE=off", "GOPATH="+gopath); got != "../util/main.go main.go" {
		t.Errorf("GOPATH mode, of a second version: %s", got)
	}

	work := t.TempDir()
	writeFiles(t, work, map[string]string{
		"go.work":  "go 1.19\n\nuse (\n\t./a\n\t./b\n)\n",
		"a/go.mod": "module example.com/a\n\ngo 1.19\n", "a/main.go": util,
		"b/go.mod": "module example.com/b\n\ngo 1.19\n", "b/main.go": main("example.com/a"),
	})
	if got := filesOf(t, work+"/b"); got != "../a/main.go main.go" {
		t.Errorf("a workspace: %s", got)
	}

	vendored := t.TempDir()
	writeFiles(t, vendored, map[string]string{
		"go.mod":                         "module example.com/v\n\ngo 1.19\n\nrequire example.com/dep v1.0.0\n",
		"main.go":                        main("example.com/dep"),
		"vendor/modules.txt":             "# example.com/dep v1.0.0\n## explicit; go 1.19\nexample.com/dep\n",
		"vendor/example.com/dep/main.go": util,
	})
	if got := filesOf(t, vendored); got != "main.go vendor/example.com/dep/main.go" {
		t.Errorf("a vendor folder: %s", got)
	}
}

// TestOwnFiles: a program finds its own files, and panics name them; so does one that a tool
// made of another file.
func TestOwnFiles(t *testing.T) {
	t.Parallel()
	dir := t.TempDir()
	writeFiles(t, dir, map[string]string{
		"go.mod": "module example.com/own\n\ngo 1.19\n",
		"main.go": "package main\n\nimport (\n\t\"fmt\"\n\t\"runtime\"\n)\n\nfunc main() {\n\t_, file, line, _ := runtime.Caller(0)\n" +
			"\tfmt.Println(file, line, runtime.GOROOT())\n\tmade()\n}\n",
		"made.go": "package main\n\n//line grammar.y:7\nfunc made() { panic(\"made\") }\n",
	})
	out, errs, _ := runIn(t, dir, "run", "-o", filepath.Join(dir, "t"), "-gorace", stub(t), ".")
	out += errs
	goroot, err := exec.Command("go", "env", "GOROOT").Output()
	if err != nil {
		t.Fatal(err)
	}
	for _, want := range []string{
		filepath.Join(dir, "main.go") + " 9 " + string(goroot), filepath.Join(dir, "main.go") + ":11 ", "grammar.y:7\n",
	} {
		if !strings.Contains(out, want) {
			t.Errorf("no %s in\n%s", want, out)
		}
	}
}
