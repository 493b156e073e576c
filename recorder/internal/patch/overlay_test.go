package patch

import (
	"flag"
	"os"
	"os/exec"
	"path/filepath"
	"runtime"
	"strings"
	"sync"
	"testing"
	"time"
)

// each has TestInstalled build and run a program with each Go that is installed, which takes long.
var each = flag.Bool("each", false, "build a program with each Go below /usr/lib")

// this is the Go that runs the tests.
func this(t *testing.T) Toolchain {
	t.Helper()
	toolchain, err := Find(filepath.Join(runtime.GOROOT(), "bin", "go"))
	if err != nil {
		t.Fatal(err)
	}
	return toolchain
}

func TestVersions(t *testing.T) {
	cases := []struct {
		toolchain Toolchain
		minor     int
		wrong     string
	}{
		{Toolchain{Version: "go1.19", OS: "linux", Arch: "amd64"}, 19, ""},
		{Toolchain{Version: "go1.24.4 X:nocoverageredesign", OS: "linux", Arch: "amd64"}, 24, ""},
		{Toolchain{Version: "go1.27.3-debian", OS: "linux", Arch: "amd64"}, 27, ""},
		{Toolchain{Version: "go1.20.1", OS: "linux", Arch: "amd64"}, 0, "of go1.20.1, only of go1.19 and go1.21 to go1.27"},
		{Toolchain{Version: "go1.27rc1", OS: "linux", Arch: "amd64"}, 0, "of go1.27rc1, only of"},
		{Toolchain{Version: "go1.28", OS: "linux", Arch: "amd64"}, 0, "has to be taken up"},
		{Toolchain{Version: "devel go1.27-abc", OS: "linux", Arch: "amd64"}, 0, "of devel go1.27-abc, only of"},
		{Toolchain{Version: "go1.19.8", OS: "linux", Arch: "arm64"}, 0, "this is for linux/arm64"},
		{Toolchain{Version: "go1.19.8", OS: "darwin", Arch: "amd64"}, 0, "this is for darwin/amd64"},
	}
	for _, c := range cases {
		minor, err := c.toolchain.minor()
		if c.wrong == "" && err != nil || minor != c.minor || c.wrong != "" && (err == nil || !strings.Contains(err.Error(), c.wrong)) {
			t.Errorf("%v: got %d, %v, want %d, %q", c.toolchain, minor, err, c.minor, c.wrong)
		}
	}
}

func TestOverlay(t *testing.T) {
	cache := t.TempDir()
	sets := make([]*Set, 8)
	var wg sync.WaitGroup
	for i := range sets {
		wg.Add(1)
		go func(i int) {
			defer wg.Done()
			set, err := Overlay(this(t), cache)
			if err != nil {
				t.Error(err)
				return
			}
			sets[i] = set
		}(i)
	}
	wg.Wait()
	if t.Failed() {
		return
	}
	for _, set := range sets {
		if set.File != sets[0].File {
			t.Errorf("side by side: %s and %s", set.File, sets[0].File)
		}
	}
	for from, to := range sets[0].replaced {
		if _, err := os.Stat(to); err != nil {
			t.Errorf("in place of %s: %v", from, err)
		}
	}
	checkFolders(t, cache, filepath.Base(filepath.Dir(sets[0].File)))

	for _, to := range sets[0].replaced {
		if err := os.Remove(to); err != nil {
			t.Fatal(err)
		}
		if _, err := Overlay(this(t), cache); err != nil {
			t.Fatal(err)
		}
		if _, err := os.Stat(to); err != nil {
			t.Errorf("what was removed isn't there again: %v", err)
		}
		break
	}
}

// TestOldOverlays: those that nobody has used for a day go.
func TestOldOverlays(t *testing.T) {
	cache := t.TempDir()
	set, err := Overlay(this(t), cache)
	if err != nil {
		t.Fatal(err)
	}
	folder := filepath.Base(filepath.Dir(set.File))
	long := time.Now().Add(-2 * keep)
	for name, age := range map[string]time.Time{"old": long, "new": time.Now()} {
		if err := os.Mkdir(filepath.Join(cache, name), 0o755); err != nil {
			t.Fatal(err)
		}
		if err := os.Chtimes(filepath.Join(cache, name), age, age); err != nil {
			t.Fatal(err)
		}
	}
	if err := os.RemoveAll(filepath.Dir(set.File)); err != nil {
		t.Fatal(err)
	}
	if _, err = Overlay(this(t), cache); err != nil {
		t.Fatal(err)
	}
	checkFolders(t, cache, folder, "new")

	// what is there is touched, so that it stays for whoever uses it
	if err := os.Chtimes(filepath.Dir(set.File), long, long); err != nil {
		t.Fatal(err)
	}
	if _, err = Overlay(this(t), cache); err != nil {
		t.Fatal(err)
	}
	info, err := os.Stat(filepath.Dir(set.File))
	if err != nil || info.ModTime().Before(time.Now().Add(-time.Hour)) {
		t.Errorf("an overlay that is used isn't touched: %v", err)
	}
}

func checkFolders(t *testing.T, cache string, want ...string) {
	t.Helper()
	entries, err := os.ReadDir(cache)
	if err != nil {
		t.Fatal(err)
	}
	for _, e := range entries {
		if !contains(want, e.Name()) {
			t.Errorf("%s is still there", e.Name())
		}
	}
	if len(entries) < len(want) {
		t.Errorf("got %v, want %v", entries, want)
	}
}

// installed are the Go that runs the tests, and each one below /usr/lib.
func installed(t *testing.T) []Toolchain {
	t.Helper()
	commands, err := filepath.Glob("/usr/lib/go-1.*/bin/go")
	if err != nil {
		t.Fatal(err)
	}
	all := []Toolchain{this(t)}
	for _, command := range commands {
		toolchain, err := Find(command)
		if err != nil {
			t.Fatal(err)
		}
		if toolchain != all[0] {
			all = append(all, toolchain)
		}
	}
	return all
}

// TestInstalled makes the overlay for each Go that is installed and supported, and builds with each if -each is given.
func TestInstalled(t *testing.T) {
	for _, toolchain := range installed(t) {
		if _, err := toolchain.minor(); err != nil {
			t.Log(err)
			continue
		}
		t.Run(toolchain.Version, func(t *testing.T) {
			begin := time.Now()
			set, err := Overlay(toolchain, t.TempDir())
			if err != nil {
				t.Fatal(err)
			}
			t.Logf("%d files in %v", len(set.replaced), time.Since(begin).Round(time.Millisecond))
			if *each {
				buildAndRun(t, toolchain, set)
			}
		})
	}
}

func TestBuild(t *testing.T) {
	set, err := Overlay(this(t), t.TempDir())
	if err != nil {
		t.Fatal(err)
	}
	buildAndRun(t, this(t), set)
}

// buildAndRun builds testdata/everything with the flags of a recorded program, and runs it with and without a log.
func buildAndRun(t *testing.T, toolchain Toolchain, set *Set) {
	flags, err := set.Flags(Flags{Tags: "tagged"}, "")
	if err != nil {
		t.Fatal(err)
	}
	program := filepath.Join(t.TempDir(), "program")
	c := exec.Command(filepath.Join(toolchain.Root, "bin", "go"), append(append([]string{"build", "-o", program}, flags...), ".")...)
	c.Dir = filepath.Join("testdata", "everything")
	c.Env = append(os.Environ(), "GOTOOLCHAIN=local", "GOFLAGS=-mod=mod")
	if out, err := c.CombinedOutput(); err != nil {
		t.Fatalf("%v: %v\n%s", c.Args, err, out)
	}
	for _, log := range []string{"", filepath.Join(t.TempDir(), "log")} {
		c := exec.Command(program)
		c.Env = append(os.Environ(), "GOREC_LOG="+log)
		out, err := c.CombinedOutput()
		if err != nil || string(out) != toolchain.Root+" "+toolchain.Version+" main.go:20\n" {
			t.Errorf("with log %q: %v\n%s", log, err, out)
		}
		if info, err := os.Stat(log); log != "" && (err != nil || info.Size() < 4096) {
			t.Errorf("the log isn't there: %v", err)
		}
	}
}
