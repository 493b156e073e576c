package patch

import (
	"strings"
	"testing"
)

const raceGo = `package runtime

import (
	"internal/abi"
	"unsafe"
)

func RaceRead(addr unsafe.Pointer)

func RaceErrors() int {
	var n uint64
	racecall(&__tsan_report_count, uintptr(unsafe.Pointer(&n)), 0, 0, 0)
	return int(n)
}

//go:noescape
func racereadpc(addr unsafe.Pointer, callpc, pc uintptr)

//go:linkname __tsan_init __tsan_init
var __tsan_init byte

//go:cgo_import_static __tsan_init
//go:cgo_import_static __tsan_read

func racecall(fn *byte, arg0, arg1, arg2, arg3 uintptr)

//go:nosplit
func raceinit() (gctx, pctx uintptr) {
	if !iscgo {
		throw("raceinit: race build must use cgo")
	}

	racecall(&__tsan_init, uintptr(unsafe.Pointer(&gctx)), uintptr(unsafe.Pointer(&pctx)), abi.FuncPCABI0(racecallbackthunk), 0)
	return
}

func racefini() {
	lock(&raceFiniLock)
	osPreemptExtEnter(getg().m)
	racecall(&__tsan_fini, 0, 0, 0, 0)
}

func racewriterangepc(addr unsafe.Pointer, sz, callpc, pc uintptr) {
	racefuncenter(callpc)
	racewriterangepc1(uintptr(addr), sz, pc)
	racefuncexit()
}

func racereadrangepc(addr unsafe.Pointer, sz, callpc, pc uintptr) {
	racefuncenter(callpc)
	racereadrangepc1(uintptr(addr), sz, pc)
	racefuncexit()
}

//go:linkname abigen_sync_atomic_LoadInt32 sync/atomic.LoadInt32
func abigen_sync_atomic_LoadInt32(addr *int32) (val int32)
`

const raceGoPatched = `package runtime

import (
	"internal/abi"; "runtime/internal/atomic"
	"unsafe"
)



func RaceErrors() int {
	var n uint64
	rec_report_count(uintptr(unsafe.Pointer(&n)), 0, 0, 0)
	return int(n)
}












//go:nosplit
func raceinit() (gctx, pctx uintptr) {




	rec_init(uintptr(unsafe.Pointer(&gctx)), uintptr(unsafe.Pointer(&pctx)), 0, 0)
	return
}

func racefini() {
	
	
	rec_fini(0, 0, 0, 0)
}

func racewriterangepc(addr unsafe.Pointer, sz, callpc, pc uintptr) {
	
	racewriterangepc1(uintptr(addr), sz, pc)
	
}

func racereadrangepc(addr unsafe.Pointer, sz, callpc, pc uintptr) {
	
	racereadrangepc1(uintptr(addr), sz, pc)
	
}

//go:linkname abigen_sync_atomic_LoadInt32 sync/atomic.LoadInt32
func abigen_sync_atomic_LoadInt32(addr *int32) (val int32)
`

// patchSmall patches a race.go as that of Go 1.19, without what comes after it.
func patchSmall(t *testing.T, text string) (*source, error) {
	t.Helper()
	own, err := hooksFor(19)
	if err != nil {
		t.Fatal(err)
	}
	own.code = ""
	s := small(text)
	return s, s.change(change{rules: raceRules, special: patchRace}, own)
}

func TestRaceGo(t *testing.T) {
	if s, err := patchSmall(t, raceGo); err != nil || s.text != raceGoPatched {
		t.Errorf("%v, got:\n%s", err, s.text)
	}
}

func TestRaceGoRefused(t *testing.T) {
	cases := []struct{ name, old, new, wrong string }{
		{"an entry point that is called", "__tsan_fini,", "__tsan_finish,", "the entry point __tsan_finish isn't known"},
		{"another use of one", "lock(&raceFiniLock)", "lock(&raceFiniLock); use(&__tsan_fini)", "racefini: a use of the race detector's object"},
		{"a function in assembly", "func racereadpc(", "func racelookpc(", "racelookpc: the function in assembly isn't known"},
		{"raceinit", "if !iscgo {", "if iscgo {", "raceinit: "},
		{"another import", "\t\"unsafe\"\n", "\t\"internal/cpu\"\n\t\"unsafe\"\n", "stands there 0 times, expected once"},
	}
	for _, c := range cases {
		t.Run(c.name, func(t *testing.T) {
			_, err := patchSmall(t, strings.Replace(raceGo, c.old, c.new, 1))
			checkRefusal(t, err, c.wrong)
		})
	}
}

func TestAssembly(t *testing.T) {
	own := &hooks{assembly: "ours", have: map[string]bool{"raceread": true, "sync∕atomic·AddInt32": true}}
	theirs := `TEXT	runtime·raceread<ABIInternal>(SB), NOSPLIT, $0-8
TEXT	racecalladdr<>(SB), NOSPLIT, $0-0
TEXT	runtime·racecall(SB), NOSPLIT, $0-0
TEXT	sync∕atomic·AddInt32(SB), NOSPLIT|NOFRAME, $0-20
`
	s := small(theirs)
	if err := replaceAssembly(s, own); err != nil || s.text != "ours" {
		t.Errorf("%v: %s", err, s.text)
	}
	more := theirs + "TEXT	sync∕atomic·NandInt32(SB), NOSPLIT|NOFRAME, $0-20\n"
	checkRefusal(t, replaceAssembly(small(more), own), "gorec has no function sync∕atomic.NandInt32")
	more = theirs + "TEXT	runtime·racelook<ABIInternal>(SB), NOSPLIT, $0-8\n"
	checkRefusal(t, replaceAssembly(small(more), own), "gorec has no function runtime.racelook")
}

// TestHooks: gorec's files have the functions that race.go calls, and those in assembly that have no object.
func TestHooks(t *testing.T) {
	own, err := hooksFor(24)
	if err != nil {
		t.Fatal(err)
	}
	for _, function := range []string{"rec_init", "racefuncenter", "recChan", "sync∕atomic·AddInt32"} {
		if !own.have[function] {
			t.Errorf("there is no %s", function)
		}
	}
	if strings.Contains(own.code, "\nimport") || strings.Contains(own.code, "getcallersp") {
		t.Error("it has imports, or names of another version")
	}
}

func TestOwnLayout(t *testing.T) {
	text, err := ownLayout()
	if err != nil {
		t.Fatal(err)
	}
	for _, part := range []string{
		"\tlogMagic = 0x", "type logHeader struct {\n\tMagic ", "\tlogLock logOp = iota + 48\n", "\nfunc logRegionsOf(chunks int) logRegions {\n",
	} {
		if !strings.Contains(text, part) {
			t.Errorf("there is no %q in:\n%s", part, text)
		}
	}
}

func TestWithoutSplits(t *testing.T) {
	const text, want = "// f is one.\nfunc f() {\n}\n\nfunc (t *T) g() {}\n\nfunc h()\n",
		"// f is one.\n//go:nosplit\nfunc f() {\n}\n\n//go:nosplit\nfunc (t *T) g() {}\n\nfunc h()\n"
	if got := withoutSplits(text); got != want {
		t.Errorf("got:\n%s", got)
	}
}

func TestAdapt(t *testing.T) {
	text := "package runtime\n\nimport (\n\t\"runtime/internal/atomic\"\n)\n\nvar x = getcallersp() + atomic.X + t.ptrdata\n"
	cases := []struct {
		minor int
		want  []string
	}{
		{19, []string{"\"runtime/internal/atomic\"", "getcallersp()", "t.ptrdata"}},
		{23, []string{"\"internal/runtime/atomic\"", "getcallersp()", "t.PtrBytes"}},
		{24, []string{"\"internal/runtime/atomic\"; \"internal/runtime/sys\"\n", "sys.GetCallerSP()"}},
	}
	for _, c := range cases {
		got := adapt(text, c.minor)
		for _, part := range c.want {
			if !strings.Contains(got, part) {
				t.Errorf("for go1.%d there is no %q in:\n%s", c.minor, part, got)
			}
		}
	}
}
