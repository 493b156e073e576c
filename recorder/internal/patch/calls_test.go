package patch

import (
	"fmt"
	"go/ast"
	"go/build"
	"go/parser"
	"go/token"
	"io/fs"
	"os"
	"path/filepath"
	"regexp"
	"strings"
	"testing"
)

// An ordering is a function of the standard library that tells the race detector an order, or whose context comes or goes.
type ordering struct {
	file     string // below GOROOT/src
	function string
	calls    string // the functions that it calls
	from, to int    // the minor versions that have it; 0 is no bound
	why      string // why it is right as it is, or "patched"
}

const patchedHere = "patched"

// orderings are all of the versions that are supported. What only accesses memory isn't here: any such call is right, since
// gorec's hooks stand for the functions that are called (maps, copies, append, conversions to an interface or a string,
// typed moves of reflect, profiles, deferred calls of range functions, the words of a RWMutex and a WaitGroup, buffers of
// system calls).
var orderings = []ordering{
	{"runtime/chan.go", "chansend", "racenotify raceaddr", 0, 0, patchedHere},
	{"runtime/chan.go", "chanrecv", "racenotify raceaddr raceacquire", 0, 0, patchedHere},
	{"runtime/chan.go", "send", "racenotify racesync", 0, 0, patchedHere},
	{"runtime/chan.go", "recv", "racenotify racesync", 0, 0, patchedHere},
	{"runtime/chan.go", "closechan", "raceaddr racerelease raceacquireg", 0, 0, patchedHere},
	{"runtime/chan.go", "makechan", "raceaddr", 0, 0, "the address of what has no buffer; no order"},
	{"runtime/chan.go", "racesync", "racerelease raceacquireg racereleaseg raceacquire", 0, 0, "nobody calls it any more"},
	{"runtime/chan.go", "racenotify", "raceacquire racerelease raceacquireg racereleaseg racereleaseacquire racereleaseacquireg", 0, 0, "nobody calls it any more"},
	{"runtime/select.go", "selectgo", "racenotify raceaddr raceacquire", 0, 0, patchedHere},
	{"sync/mutex.go", "Lock", "Acquire", 0, 23, patchedHere},
	{"sync/mutex.go", "lockSlow", "Acquire", 0, 23, patchedHere},
	{"sync/mutex.go", "TryLock", "Acquire", 0, 23, patchedHere},
	{"sync/mutex.go", "Unlock", "Release", 0, 23, patchedHere},
	{"internal/sync/mutex.go", "Lock", "Acquire", 24, 0, patchedHere},
	{"internal/sync/mutex.go", "lockSlow", "Acquire", 24, 0, patchedHere},
	{"internal/sync/mutex.go", "TryLock", "Acquire", 24, 0, patchedHere},
	{"internal/sync/mutex.go", "Unlock", "Release", 24, 0, patchedHere},
	{"sync/rwmutex.go", "RLock", "Acquire Disable Enable", 0, 0, patchedHere},
	{"sync/rwmutex.go", "TryRLock", "Acquire Disable Enable", 0, 0, patchedHere},
	{"sync/rwmutex.go", "RUnlock", "ReleaseMerge Disable Enable", 0, 0, patchedHere},
	{"sync/rwmutex.go", "rUnlockSlow", "Enable", 0, 0, "before a fatal error"},
	{"sync/rwmutex.go", "Lock", "Acquire Disable Enable", 0, 0, patchedHere},
	{"sync/rwmutex.go", "TryLock", "Acquire Disable Enable", 0, 0, patchedHere},
	{"sync/rwmutex.go", "Unlock", "Release Disable Enable", 0, 0, patchedHere},

	{"sync/waitgroup.go", "Add", "ReleaseMerge Disable Enable", 0, 0, "Done releases"},
	{"sync/waitgroup.go", "Wait", "Acquire Disable Enable", 0, 0, "Wait acquires; its atomics stand between Disable and Enable"},
	{"sync/pool.go", "Put", "ReleaseMerge Disable Enable", 0, 0, "Put of a value comes before a Get of it; 128 addresses stand for all values"},
	{"sync/pool.go", "Get", "Acquire Disable Enable", 0, 0, "see Put"},
	{"iter/iter.go", "Pull", "Acquire Release", 22, 0, "who calls and the coroutine, in turn"},
	{"iter/iter.go", "Pull2", "Acquire Release", 22, 0, "see Pull"},
	{"syscall/syscall_unix.go", "Read", "Acquire", 0, 0, "any write comes before a read that finds something: pipes and sockets"},
	{"syscall/syscall_unix.go", "Pread", "Acquire", 0, 0, "see Read"},
	{"syscall/syscall_unix.go", "Write", "ReleaseMerge", 0, 0, "see Read"},
	{"syscall/syscall_unix.go", "Pwrite", "ReleaseMerge", 0, 0, "see Read"},
	{"syscall/syscall_unix.go", "Sendfile", "ReleaseMerge", 0, 0, "see Read"},

	{"runtime/proc.go", "schedinit", "raceinit", 0, 0, "calls rec_init"},
	{"runtime/proc.go", "main", "racefini", 0, 0, "calls rec_fini, and goes on to exit"},
	{"runtime/proc.go", "os_beforeExit", "racefini", 0, 0, patchedHere},
	{"runtime/proc.go", "newproc1", "racegostart racereleasemergeg", 0, 0, "a goroutine begins; it has the labels that were set before"},
	{"runtime/proc.go", "oneNewExtraM", "racegostart", 0, 0, "the goroutine of a thread of C"},
	{"runtime/proc.go", "goexit1", "racegoend racereleasemergeg raceaddr", 0, 0, "a goroutine ends; from Go 1.24 it releases its bubble of synctest"},
	{"runtime/proc.go", "gfget", "racemalloc", 0, 0, "a stack is used anew"},
	{"runtime/proc.go", "init", "raceproccreate", 0, 0, "the context of a P: there is none"},
	{"runtime/proc.go", "destroy", "raceprocdestroy racectxend", 0, 0, "a P goes, and the goroutine of its timers"},
	{"runtime/stack.go", "stackalloc", "racemalloc", 0, 0, "memory of a stack is used anew"},
	{"runtime/malloc.go", "mallocgc", "racemalloc", 0, 0, patchedHere},
	{"runtime/malloc.go", "sysAlloc", "racemapshadow", 0, 0, "the heap grows"},
	{"runtime/mgcsweep.go", "sweep", "racefree", 0, 0, "nothing to do"},
	{"runtime/arena.go", "newUserArenaChunk", "racemalloc", 21, 0, "memory is used anew; its types aren't told"},
	{"runtime/arena.go", "setUserArenaChunkToFault", "racefree", 21, 0, "nothing to do"},
	{"runtime/arena.go", "freeUserArenaChunk", "racefree", 21, 0, "nothing to do"},
	{"runtime/cgocall.go", "cgocall", "racereleasemerge raceacquire", 0, 0, "calls of C order each other: C may have locks"},
	{"runtime/cgocall.go", "cgocallbackg1", "raceacquire racereleasemerge", 0, 0, "see cgocall"},

	{"runtime/mfinal.go", "runfinq", "racefingo", 0, 24, "what was done before comes before a finalizer"},
	{"runtime/mfinal.go", "runFinalizers", "racefingo", 25, 0, "see runfinq"},
	{"runtime/mcleanup.go", "runCleanups", "racefingo racerelease raceacquire raceEnterNewCtx raceRestoreCtx", 25, 0, "each function of AddCleanup has a goroutine of its own"},
	{"runtime/mcleanup.go", "raceEnterNewCtx", "racefree racectxstart racemalloc", 25, 0, "that begins"},
	{"runtime/mcleanup.go", "raceRestoreCtx", "racefree racectxend racemalloc", 25, 0, "that ends"},

	{"runtime/time.go", "startTimer", "racerelease", 0, 22, "comes before the timer's function"},
	{"runtime/time.go", "newTimer", "racerelease", 23, 0, "see startTimer"},
	{"runtime/time.go", "resetTimer", "racerelease", 0, 0, "see startTimer"},
	{"runtime/time.go", "runOneTimer", "racegostart raceacquirectx", 0, 22, "the timers of a P are a goroutine"},
	{"runtime/time.go", "unlockAndRun", "racegostart raceacquirectx racereleasemergeg raceaddr", 23, 0, "see runOneTimer; from Go 1.25 timers of a bubble release it"},
	{"runtime/synctest.go", "changegstatus", "racereleasemergeg raceaddr", 24, 0, "what a bubble's goroutines did before they wait comes before Wait and Run return"},
	{"runtime/synctest.go", "synctestRun", "raceacquireg raceaddr", 24, 0, "see changegstatus"},
	{"runtime/synctest.go", "synctestWait", "raceacquireg raceaddr", 24, 0, "see changegstatus"},

	{"runtime/metrics.go", "metricsLock", "raceacquire", 0, 0, "a lock of package runtime"},
	{"runtime/metrics.go", "metricsUnlock", "racerelease", 0, 0, "see metricsLock"},
	{"runtime/type.go", "reflectOffsLock", "raceacquire", 0, 0, "a lock of package runtime"},
	{"runtime/type.go", "reflectOffsUnlock", "racerelease", 0, 0, "see reflectOffsLock"},
	{"runtime/type.go", "moduleTypelinks", "raceacquire racerelease", 27, 0, "a lock of package runtime"},
	{"runtime/runtime.go", "IncNonDefault", "racereleasemerge raceacquire", 21, 0, "a counter's function is set once"},
	{"runtime/proflabel.go", "runtime_setProfLabel", "racereleasemerge", 0, 0, "labels come before profiles"},
	{"runtime/profbuf.go", "read", "raceacquire", 0, 0, "see runtime_setProfLabel"},
	{"runtime/mprof.go", "goroutineProfileWithLabelsConcurrent", "raceacquire", 0, 0, "see runtime_setProfLabel"},
	{"runtime/mprof.go", "goroutineProfileWithLabelsSync", "raceacquire", 0, 0, "see runtime_setProfLabel"},
	{"runtime/mprof.go", "goroutineLeakProfileWithLabelsConcurrent", "raceacquire", 26, 0, "see runtime_setProfLabel"},
	{"runtime/trace.go", "*", "raceacquire racerelease", 0, 0, "locks and the end of a trace"},
	{"runtime/trace2.go", "*", "raceacquire racerelease", 22, 22, "see trace.go"},
}

var orderingCall = regexp.MustCompile(`^race[A-Za-z]*$`)

// accesses are calls that tell accesses of memory alone.
var accesses = regexp.MustCompile(`(?i)read|write`)

// TestOrderings looks for orders in the standard library of each installed Go that gorec doesn't know.
func TestOrderings(t *testing.T) {
	for _, toolchain := range installed(t) {
		toolchain := toolchain
		minor, err := toolchain.minor()
		if err != nil {
			t.Log(err)
			continue
		}
		t.Run(toolchain.Version, func(t *testing.T) {
			t.Parallel()
			found := 0
			for _, folder := range []string{"runtime", "internal", "sync", "iter", "syscall", "reflect", "os", "time", "context"} {
				root := filepath.Join(toolchain.Root, "src")
				found += checkOrderings(t, root, folder, minor)
			}
			if found < 100 {
				t.Errorf("only %d calls found", found)
			}
		})
	}
}

// checkOrderings counts the calls of a folder, and complains of those that the table doesn't have.
func checkOrderings(t *testing.T, root, folder string, minor int) int {
	target := build.Default
	target.GOOS, target.GOARCH, target.BuildTags, target.ToolTags = "linux", "amd64", []string{"race"}, nil
	target.ReleaseTags = nil
	for n := 1; n <= minor; n++ {
		target.ReleaseTags = append(target.ReleaseTags, fmt.Sprintf("go1.%d", n))
	}
	found := 0
	err := filepath.WalkDir(filepath.Join(root, folder)+string(filepath.Separator), func(path string, d fs.DirEntry, err error) error {
		if err != nil {
			return err
		}
		if d.IsDir() {
			if d.Name() == "testdata" || d.Name() == "race" {
				return filepath.SkipDir
			}
			return nil
		}
		name := d.Name()
		if !strings.HasSuffix(name, ".go") || strings.HasSuffix(name, "_test.go") || name == "race.go" {
			return nil
		}
		if match, err := target.MatchFile(filepath.Dir(path), name); err != nil || !match {
			return err
		}
		file, err := filepath.Rel(root, path)
		if err != nil {
			return err
		}
		text, err := os.ReadFile(path)
		if err != nil || !strings.Contains(string(text), "race") {
			return err
		}
		for _, call := range raceCalls(t, file, text) {
			found++
			if !isKnown(file, call.function, call.name, minor) {
				t.Errorf("%s: %s calls %s", file, call.function, call.name)
			}
		}
		return nil
	})
	if err != nil && !os.IsNotExist(err) {
		t.Error(err)
	}
	return found
}

func isKnown(file, function, call string, minor int) bool {
	for _, o := range orderings {
		if o.file == file && (o.function == function || o.function == "*") && o.from <= minor && (o.to == 0 || minor <= o.to) &&
			contains(strings.Fields(o.calls), call) {
			return true
		}
	}
	return false
}

type raceCall struct{ function, name string }

// raceCalls are the calls in a file of functions of the race detector, but for accesses.
func raceCalls(t *testing.T, file string, text []byte) []raceCall {
	parsed, err := parser.ParseFile(token.NewFileSet(), file, text, parser.SkipObjectResolution)
	if err != nil {
		t.Errorf("%s isn't looked at: %v", file, err)
		return nil
	}
	var calls []raceCall
	for _, d := range parsed.Decls {
		f, ok := d.(*ast.FuncDecl)
		if !ok || f.Body == nil {
			continue
		}
		ast.Inspect(f.Body, func(n ast.Node) bool {
			call, ok := n.(*ast.CallExpr)
			if !ok {
				return true
			}
			if name := calledRace(call, parsed.Name.Name); name != "" && !accesses.MatchString(name) {
				calls = append(calls, raceCall{f.Name.Name, name})
			}
			return true
		})
	}
	return calls
}

// calledRace is the name of the race detector's function that is called, or "".
func calledRace(call *ast.CallExpr, pkg string) string {
	switch f := call.Fun.(type) {
	case *ast.Ident:
		if pkg == "runtime" && orderingCall.MatchString(f.Name) {
			return f.Name
		}
	case *ast.SelectorExpr:
		if x, ok := f.X.(*ast.Ident); ok && x.Name == "race" {
			return f.Sel.Name
		}
		if pkg == "runtime" && orderingCall.MatchString(f.Sel.Name) {
			return f.Sel.Name
		}
	}
	return ""
}
