package main

import (
	"io"
	"strings"
	"testing"
	"testing/iotest"

	"gorace.local/recorder/internal/report"
)

// racesIn are reports on a race in one or two tests.
func racesIn(tests ...string) []*report.Report {
	r := report.Race{Variable: "x"}
	for i := range r.Accesses {
		r.Accesses[i] = report.Access{Kind: []string{"write", "read"}[i], Place: []string{"a.go:1", "a.go:2"}[i], Test: tests[i%len(tests)]}
	}
	return []*report.Report{{All: []report.Race{r}}}
}

// TestOutputOfTests: what tests write is passed on at once, but that all passed; of tests with races it is told that they failed.
func TestOutputOfTests(t *testing.T) {
	const told = "    race on x: write at a.go:1, read at a.go:2\n"
	for _, c := range []struct {
		words, output string
		status        int
		reports       []*report.Report
		first, last   string
	}{
		{"", "a\nPASS\ncoverage: 1%\n", 0, nil, "a\n", "PASS\ncoverage: 1%\n"},
		{"", "PASS\n", cutOff, nil, "", "PASS\n"},
		{"", "PASS\n", unusable, nil, "", "FAIL\n"},
		{"", "PASSED\nPAS", 0, nil, "PASSED\nPAS\n", ""},
		{"", "x PASS\nPASS\n" + strings.Repeat("more\n", 1000), 0, nil, "x PASS\nPASS\n" + strings.Repeat("more\n", 1000), ""},
		{"", "PASS\n", racing, racesIn("TestA"), "", "--- FAIL: TestA (0.00s)\n" + told + "FAIL\n"},
		{"", "PASS\n", racing, racesIn("TestA", "TestB/c"), "", "--- FAIL: TestA (0.00s)\n" + told +
			"--- FAIL: TestB (0.00s)\n    --- FAIL: TestB/c (0.00s)\n    " + told + "FAIL\n"},
		{"-test.v=true", "--- PASS: TestA (0.00s)\nPASS\n", racing, racesIn("TestA"), "--- PASS: TestA (0.00s)\n",
			"=== RUN   TestA\n" + told + "--- FAIL: TestA (0.00s)\nFAIL\n"},
		{"-test.v=true", "PASS\n", racing, racesIn("TestB/c"), "",
			"=== RUN   TestB\n=== RUN   TestB/c\n    " + told + "--- FAIL: TestB (0.00s)\n    --- FAIL: TestB/c (0.00s)\nFAIL\n"},
		{"-test.v=test2json", "\x16PASS\n", racing, racesIn("TestA"), "", "\x16=== RUN   TestA\n" + told + "\x16--- FAIL: TestA (0.00s)\n\x16FAIL\n"},
		{"", "--- FAIL: TestA (0.00s)\nFAIL\n", racing, racesIn("TestA"), "--- FAIL: TestA (0.00s)\nFAIL\n", ""},
	} {
		for _, output := range []io.Reader{strings.NewReader(c.output), iotest.OneByteReader(strings.NewReader(c.output))} {
			var b strings.Builder
			out := newTestOutput(&b, strings.Fields(c.words))
			lineWriter(out.line).readFrom(output)
			if b.String() != c.first {
				t.Errorf("%q: before the verdict %q", c.output, b.String())
			}
			out.end(&run{verdict: verdict{Status: c.status}, reports: c.reports})
			if b.String() != c.first+c.last {
				t.Errorf("%q: got %q", c.output, b.String())
			}
		}
	}
}
