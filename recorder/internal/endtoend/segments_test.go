package endtoend

import (
	"path/filepath"
	"strings"
	"testing"
)

// TestWhatIsRepeatedForLong: what a goroutine repeats, and does nothing besides that releases, stands in the last segment too.
func TestWhatIsRepeatedForLong(t *testing.T) {
	requireJudge(t)
	t.Parallel()
	trace := filepath.Join(t.TempDir(), "polls.gotrace")
	out, errs, status := runTool(t, "run", "-records", "80000", "-gorace", stub(t), "-o", trace, "./polls")
	if status != 0 || !strings.Contains(out, "gorec: judged in ") {
		t.Fatalf("status %d\n%s%s", status, out, errs)
	}
	if report := judgeAll(t, map[string]string{"polls": trace})["polls"]; !strings.Contains(report, "race on total: ") {
		t.Errorf("no race on total\n%s", report)
	}
}
