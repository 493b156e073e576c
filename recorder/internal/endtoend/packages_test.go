package endtoend

import (
	"encoding/json"
	"os"
	"path/filepath"
	"regexp"
	"strings"
	"testing"
)

// finder is a judge that tells a race on a variable where a trace has it: between a write, after which its goroutine
// starts no other, and the next access of another goroutine. As long as variables have no names, it tells one on any of them.
func finder(t *testing.T, variable string) string {
	t.Helper()
	path := filepath.Join(t.TempDir(), "finder")
	script := `#!/bin/sh
exec awk -v x=` + variable + ` '
NR == 1 || NF < 3 || $1 ~ /^(goroutine|var|chan|mutex|rwmutex|once)$/ { next }
{ event++ }
$1 == "go" && $2 == who { who = "" }
$3 ~ /^_/ { $3 = x }
$1 == "write" && $3 == x && !who { who = $2; first = "write by " $2 " at " $5 " (event " event ")"; next }
($1 == "read" || $1 == "write") && $3 == x && who && $2 != who && !told {
	print "race on " x ": " first ", " $1 " by " $2 " at " $5 " (event " event ")"; print "races: 1"; told = 1
}
END { if (told) exit 66; print "clean: " event " events, 0 accesses" }'
`
	if err := os.WriteFile(path, []byte(script), 0o755); err != nil {
		t.Fatal(err)
	}
	return path
}

// runService runs gorec in the folder of the example service.
func runService(t *testing.T, env []string, args ...string) (stdout, stderr string, status int) {
	t.Helper()
	return runWith(t, root+"/testdata/service", env, args...)
}

var seconds = regexp.MustCompile(`\t\d+\.\d+s`)

// packageLines are the last lines of packages, without times.
func packageLines(out string) string {
	var lines []string
	for _, line := range strings.Split(out, "\n") {
		if len(line) > 4 && line[4] == '\t' && strings.Contains(line, "example.com/") {
			lines = append(lines, seconds.ReplaceAllString(line, "\tN"))
		}
	}
	return strings.Join(lines, "\n")
}

// TestPackages: each package has a line, and all have one status.
func TestPackages(t *testing.T) {
	t.Parallel()
	for _, c := range []struct {
		words  string
		judge  string
		lines  string
		status int
	}{
		{"./...", finder(t, "Store_sold"), `ok  	example.com/service/bank	N
FAIL	example.com/service/broken [build failed]
?   	example.com/service/plain	[no test files]
FAIL	example.com/service/store	N
FAIL	example.com/service/wrong	N`, 66},
		{"-p 2 ./... -run Pay|Sell", stub(t), `ok  	example.com/service/bank	N
FAIL	example.com/service/broken [build failed]
?   	example.com/service/plain	[no test files]
ok  	example.com/service/store	N
ok  	example.com/service/wrong	N [no tests to run]`, 3},
		{"./bank ./wrong ./plain", stub(t), `ok  	example.com/service/bank	N
FAIL	example.com/service/wrong	N
?   	example.com/service/plain	[no test files]`, 21},
		{"./store ./bank -run Sell -v", stub(t), `ok  	example.com/service/store	N
ok  	example.com/service/bank	N [no tests to run]`, 0},
		{"./plain", stub(t), "?   	example.com/service/plain	[no test files]", 0},
		{"./bank -run Nothing", stub(t), "ok  	example.com/service/bank	N [no tests to run]", 0},
		{"./bank", judgeSaying(t, filepath.Join(t.TempDir(), "illegal"), "illegal: event 5: stale read", 1), "FAIL	example.com/service/bank	N", 1},
	} {
		args := append([]string{"test", "-gorace", c.judge}, strings.Fields(c.words)...)
		out, errs, status := runService(t, []string{"XDG_CACHE_HOME=" + t.TempDir()}, args...)
		if lines := packageLines(out); lines != c.lines || status != c.status {
			t.Errorf("%s: status %d, lines\n%s\nof\n%s%s", c.words, status, lines, out, errs)
		}
	}
}

// TestFlagsOfTests: flags stand before the packages and after them, and reach the tests
// of each.
func TestFlagsOfTests(t *testing.T) {
	t.Parallel()
	for words, want := range map[string]string{
		"-v -count 2 ./bank -run Own -own 3":       "own 3",
		"./bank ./store -v -run Own|Sell -count=1": "--- PASS: TestSell",
	} {
		args := append([]string{"test", "-gorace", stub(t)}, strings.Fields(words)...)
		out, errs, status := runService(t, []string{"XDG_CACHE_HOME=" + t.TempDir()}, args...)
		if status != 0 || !strings.Contains(out, want) || strings.Contains(out, "TestPay") {
			t.Errorf("%s: status %d\n%s%s", words, status, out, errs)
		}
	}
}

// TestListsOfTests: -list lists the tests of several packages too.
func TestListsOfTests(t *testing.T) {
	t.Parallel()
	out, errs, status := runService(t, []string{"XDG_CACHE_HOME=" + t.TempDir()}, "test", "-gorace", stub(t), "-list", ".", "./bank", "./store")
	if status != 0 || !strings.Contains(out, "TestPay\n") || !strings.Contains(out, "TestSell\n") {
		t.Errorf("status %d\n%s%s", status, out, errs)
	}
}

// TestExplained: after the report stands what each of the two last synchronized by, and how
// the race is drawn; the trace is where that says.
func TestExplained(t *testing.T) {
	t.Parallel()
	cache := t.TempDir()
	judge := finder(t, "Store_sold")
	out, _, _ := runService(t, []string{"XDG_CACHE_HOME=" + cache}, "test", "-gorace", judge, "./store")
	kept := filepath.Join(cache, "gorec", "example.com_service_store.test.gotrace")
	for _, want := range []string{
		"'s write of Store_sold: without a lock, after unlock of Store_account_mu at bank/bank.go:16\n",
		"\ngorec: to see why: " + judge + " draw Store_sold < " + kept + "\n",
	} {
		if !strings.Contains(out, want) {
			t.Errorf("no %s in\n%s", want, out)
		}
	}
	if b, err := os.ReadFile(kept); err != nil || !strings.HasPrefix(string(b), "gotrace 1\n") {
		t.Errorf("%v\n%s", err, b)
	}
	left, _ := filepath.Glob(filepath.Join(cache, "gorec", ".*"))
	if len(left) > 0 {
		t.Errorf("left are %v", left)
	}
}

// TestTracesOfSeveral: of several packages those that aren't clean have their traces in the
// folder of -o, as the help says.
func TestTracesOfSeveral(t *testing.T) {
	t.Parallel()
	folder := filepath.Join(t.TempDir(), "traces")
	_, errs, status := runService(t, nil, "test", "-o", folder, "-gorace", finder(t, "Store_sold"), "./bank", "./store", "./wrong")
	files, _ := filepath.Glob(filepath.Join(folder, "*"))
	for i, path := range files {
		files[i] = filepath.Base(path)
	}
	want := "example.com_service_store.test.gotrace example.com_service_wrong.test.gotrace"
	if status != 66 || strings.Join(files, " ") != want {
		t.Errorf("status %d, %v\n%s", status, files, errs)
	}
	const help = "of several packages, those that aren't clean, in this folder\n"
	if out, errs, _ := runTool(t, "help", "test"); !strings.Contains(out, help) {
		t.Errorf("%s%s", out, errs)
	}
}

// TestRuns: a program is run until a race is found, each time with another seed.
func TestRuns(t *testing.T) {
	t.Parallel()
	judge := filepath.Join(t.TempDir(), "third")
	script := `#!/bin/sh
cat >/dev/null
echo asked >>` + judge + `.asked
[ $(wc -l <` + judge + `.asked) -lt 3 ] && echo 'clean: 1 events, 0 accesses' && exit 0
echo 'races: 1'
exit 66
`
	if err := os.WriteFile(judge, []byte(script), 0o755); err != nil {
		t.Fatal(err)
	}
	_, errs, status := runTool(t, "run", "-gorace", judge, "-runs", "5", "-seed", "7", "./runs")
	want := []string{"7", "8", "9"}
	seeds := regexp.MustCompile(`with seed (\d+)`).FindAllStringSubmatch(errs, -1)
	if status != 66 || len(seeds) != len(want) {
		t.Fatalf("status %d\n%s", status, errs)
	}
	for i, s := range seeds {
		if s[1] != want[i] {
			t.Errorf("run %d has seed %s", i+1, s[1])
		}
	}
	if _, errs, status = runTool(t, "run", "-gorace", stub(t), "-runs", "2", "./runs"); status != 0 || strings.Count(errs, "with seed") != 2 {
		t.Errorf("status %d\n%s", status, errs)
	}
}

// TestJSON: each line is an object; a race has both its accesses, and last comes the verdict.
func TestJSON(t *testing.T) {
	t.Parallel()
	out, errs, status := runIn(t, programs, "run", "-json", "-o", filepath.Join(t.TempDir(), "t"), "-gorace", finder(t, "Counter_n"), "./counter")
	type access struct {
		Kind, Goroutine, Place, Behind string
		Event                          int
		Started                        *struct{ By, Place string }
	}
	var last struct {
		Action string
		Race   *struct {
			Variable string
			Accesses []access
		}
		Verdict *struct {
			Status, Races int
			Trace         string
		}
	}
	races := 0
	for _, line := range strings.Split(strings.TrimSpace(out), "\n") {
		last.Race, last.Verdict = nil, nil
		if err := json.Unmarshal([]byte(line), &last); err != nil {
			t.Fatalf("%v: %s", err, line)
		}
		if last.Race == nil {
			continue
		}
		races++
		a := last.Race.Accesses
		if last.Action != "race" || len(a) != 2 || a[0].Kind != "write" || a[0].Event == 0 || !strings.HasPrefix(a[0].Place, "counter/main.go:") || a[0].Behind == "" {
			t.Errorf("the race: %s", line)
		}
	}
	if v := last.Verdict; status != 66 || races != 1 || last.Action != "racing" || v == nil || v.Status != 66 || v.Races != 1 {
		t.Errorf("status %d, %d races\n%s%s", status, races, out, errs)
	}
}
