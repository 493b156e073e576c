package endtoend

import (
	"os"
	"path/filepath"
	"testing"
)

// TestOrdered: what package testing orders is no race, of examples, fuzz tests and benchmarks too.
func TestOrdered(t *testing.T) {
	requireJudge(t)
	t.Parallel()
	trace := filepath.Join(t.TempDir(), "run.gotrace")
	out, errs, status := runTool(t, "test", "-gorace", stub(t), "-o", trace, "-v", "-bench", ".", "-benchtime", "20x", "./ordered")
	if status != 0 {
		t.Fatalf("status %d\n%s%s", status, out, errs)
	}
	report := judgeAll(t, map[string]string{"ordered": trace})["ordered"]
	if err := (verdict{}).check(report); err != nil {
		text, _ := os.ReadFile(trace)
		t.Errorf("%v\n%s%s", err, report, text)
	}
}

const inTurn = `package turn

import "testing"

var used int

func TestA(t *testing.T) { t.Parallel(); used++ }
func TestB(t *testing.T) { t.Parallel(); used++ }
func TestC(t *testing.T) { t.Parallel(); used++ }
`

// TestInTurn: parallel tests race, unless -parallel 1 has them run one after another.
func TestInTurn(t *testing.T) {
	requireJudge(t)
	t.Parallel()
	dir := t.TempDir()
	writeFiles(t, dir, map[string]string{"go.mod": "module example.com/turn\n\ngo 1.19\n", "turn_test.go": inTurn})
	b := newBatch()
	for parallel, want := range map[string]verdict{"1": {}, "2": {races: []string{"used"}}} {
		trace := filepath.Join(t.TempDir(), "run.gotrace")
		out, errs, status := runIn(t, dir, "test", "-gorace", stub(t), "-o", trace, ".", "-parallel", parallel)
		if status != 0 {
			t.Fatalf("status %d\n%s%s", status, out, errs)
		}
		b.add("-parallel "+parallel, trace, want.check)
	}
	b.judge(t)
}
