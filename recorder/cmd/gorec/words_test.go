package main

import (
	"flag"
	"fmt"
	"strings"
	"testing"

	"gorace.local/recorder/internal/patch"
)

// parsed is what becomes of the words of a command: gorec's own flags, those of go, and the rest, or why they are refused.
func parsed(name, line string) string {
	s := newSession(name)
	for _, c := range commands {
		if c.name == name {
			if err := s.parse(c, strings.Fields(line)); err != nil {
				return "refused: " + err.Error()
			}
		}
	}
	var own []string
	s.own.Visit(func(f *flag.Flag) {
		if _, isGo := f.Value.(*goFlag); !isGo {
			own = append(own, f.Name+"="+f.Value.String())
		}
	})
	return strings.Join([]string{strings.Join(own, " "), strings.Join(s.flags, " "), strings.Join(s.rest, " ")}, " | ")
}

// TestWordsOfRun: gorec's own flags, those of go build, and the program with its words are told apart.
func TestWordsOfRun(t *testing.T) {
	for _, c := range []struct{ words, want string }{
		{". -v x", " |  | . -v x"},
		{"-seed 5 -runs=2 -predict . a", "predict=true runs=2 seed=5 |  | . a"},
		{"--json -tags a,b -race .", "json=true | -tags=a,b -race=true | ."},
		{"-mod mod -v -p 2 -trimpath ./cmd", " | -mod=mod -v=true -p=2 -trimpath=true | ./cmd"},
		{"-gcflags=-N -gcflags m/...=-l -ldflags -s .", " | -gcflags=-N -gcflags=m/...=-l -ldflags=-s | ."},
		{"-overlay o.json -modfile=x.mod -- -odd", " | -overlay=o.json -modfile=x.mod | -odd"},
		{"-o t -stacks=false a.go b.go c", "o=t stacks=false |  | a.go b.go c"},
		{"-odd .", "refused: flag provided but not defined: -odd"},
		{"-msan .", "refused: -msan: a program has the calls of one of -race, -msan and -asan"},
		{"-buildmode=plugin .", "refused: -buildmode plugin: gorec records programs"},
		{"-compiler gccgo .", "refused: -compiler gccgo: only Go's own compiler puts in the calls that record"},
		{"-runs x .", `refused: invalid value "x" for flag -runs: parse error`},
		{"-tags", "refused: flag needs an argument: -tags"},
		{"-h", "refused: " + flag.ErrHelp.Error()},
	} {
		if got := parsed("run", c.words); got != c.want {
			t.Errorf("%s: got %s", c.words, got)
		}
	}
}

// TestWordsOfTest: of the words of go test gorec takes its own flags before the packages, and go test's wherever they stand.
func TestWordsOfTest(t *testing.T) {
	for _, c := range []struct{ words, want string }{
		{"", " |  | "},
		{"./bank ./store -run X -v", " | -run=X -v=true | ./bank ./store"},
		{"-run X -v ./bank ./store", " | -run=X -v=true | ./bank ./store"},
		{"-race -coverprofile c.out ./...", " | -race=true -coverprofile=c.out | ./..."},
		{"-seed 5 -predict . -seed 7", "predict=true seed=5 |  | . -seed 7"},
		{"-json -count=1 -p 2 -parallel 4 -timeout 5m -short ./...", " | -json=true -count=1 -p=2 -parallel=4 -timeout=5m -short=true | ./..."},
		{". -own 3 -tags a -short word -v=true", " | -tags=a -short=true | . -own 3 word -v=true"},
		{". -own=3 word -tags a", " |  | . -own=3 word -tags a"}, // after a word all is for the tests
		{". -v -args -run x -race -tags a", " | -v=true | . -args -run x -race -tags a"},
		{"-own x -seed 5", " |  | -own x -seed 5"}, // nothing tells where the packages would stand
		{"-bench . -benchtime 1x -test.run None -vet=off -fuzz=F -ldflags=-s .",
			" | -bench=. -benchtime=1x -test.run=None -vet=off -fuzz=F -ldflags=-s | ."},
		{"-c -o x.test .", "o=x.test | -c=true | ."},
		{". -c -o x.test", " | -c=true -o=x.test | ."},
		{". -race", " | -race=true | ."},
		{"-exec env .", "refused: -exec: the programs are run by gorec exec"},
		{". -run", "refused: flag needs an argument: -run"},
		{"-runs x .", `refused: invalid value "x" for flag -runs: parse error`},
	} {
		if got := parsed("test", c.words); got != c.want {
			t.Errorf("%s: got %s", c.words, got)
		}
	}
}

// TestFlagsOfBuilds: what gorec adds stands in front, and the user's own flags are kept.
func TestFlagsOfBuilds(t *testing.T) {
	const always = "-overlay= -tags=race -gcflags=all=-race -d=checkptr=0 -race=false"
	const kept = " -s=false -w=false -compressdwarf=false"
	const debug = " -ldflags=-s=false -w=false -compressdwarf=false"
	for _, c := range []struct{ goflags, flags, want string }{
		{"", "", always + debug},
		{"-race -mod=mod", "-race=true", always + debug},
		{"-tags=a '-ldflags=-X m.v=w w'", "", "-overlay= -tags=race,a -gcflags=all=-race -d=checkptr=0 -race=false" + debug + " -ldflags=-X m.v=w w" + kept},
		{"-tags=a", "-tags=b,c", "-overlay= -tags=race,b,c -gcflags=all=-race -d=checkptr=0 -race=false" + debug},
		{`"-gcflags=-N -l"`, "-gcflags=m=-m", "-overlay= -tags=race -gcflags=all=-race -d=checkptr=0 -gcflags=-race -d=checkptr=0 -N -l" +
			" -gcflags=m=-race -d=checkptr=0 -m -race=false" + debug},
		{"", "-ldflags= -ldflags=m=-w", always + debug + debug + " -ldflags=m=-w" + kept},
		{"", "-cover=true", always + debug + " -covermode=atomic -cover=true"},
		{"-cover", "-v=true", always + debug + " -covermode=atomic -v=true"},
		{"", "-covermode=set -coverprofile=c", always + debug + " -covermode=set -coverprofile=c"},
		{"-exec=env", "", "refused: GOFLAGS: -exec: the programs are run by gorec exec"},
	} {
		flags, err := flagsWith(&patch.Set{}, c.goflags, strings.Fields(c.flags))
		got := strings.Join(flags, " ")
		if err != nil {
			got = "refused: " + err.Error()
		}
		if got != c.want {
			t.Errorf("%q, %s: got %s", c.goflags, c.flags, got)
		}
	}
}

// TestQuoted: words are read back as they were.
func TestQuoted(t *testing.T) {
	words := []string{"a", "", "a b", `it's`, `say "x"`, "-o=/tmp/a b"}
	all, err := quoted(words)
	if err != nil {
		t.Fatal(err)
	}
	var back []string
	for _, m := range goWord.FindAllStringSubmatch(all, -1) {
		back = append(back, m[1]+m[2]+m[3])
	}
	if fmt.Sprintf("%q", back) != fmt.Sprintf("%q", words) {
		t.Errorf("%q", back)
	}
	if _, err := quoted([]string{`'"`}); err == nil {
		t.Error("a word with both quotes was quoted")
	}
}
