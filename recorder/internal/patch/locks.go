package patch

import (
	"fmt"

	"gorace.local/recorder/internal/hooklog"
)

// tell is a statement that tells of an operation on a lock or a once.
func tell(op hooklog.Op, of string) string {
	return fmt.Sprintf("race.Op(%d, unsafe.Pointer(%s))", op, of)
}

// tellIf is tell where nobody has asked yet whether the program is recorded.
func tellIf(op hooklog.Op, of string) string { return "if race.Enabled { " + tell(op, of) + " }" }

// withLockRules: the atomic operations on the words of locks aren't told. From Go 1.21 on those of a RWMutex are methods.
func withLockRules(rules []rule) []rule {
	return append(rules,
		rule{in: anywhere, old: `atomic\.CompareAndSwapInt32\(&(\w+\.\w+), |\b(rw\.\w+)\.CompareAndSwap\(`, new: `recCAS(unsafe.Pointer(&$1$2), `, count: several},
		rule{in: anywhere, old: `atomic\.AddInt32\(&(\w+\.\w+), |\b(rw\.\w+)\.Add\(`, new: `recAdd(unsafe.Pointer(&$1$2), `, count: several},
		rule{in: anywhere, old: `atomic\.LoadInt32\(&(\w+\.\w+)\)|\b(rw\.\w+)\.Load\(\)`, new: `recLoad(unsafe.Pointer(&$1$2))`, count: several})
}

const (
	acquire     = `race\.Acquire\(unsafe\.Pointer\(`
	acquireRead = acquire + `&rw\.readerSem\)\)`
	acquireBoth = acquireRead + `\n\t+` + acquire + `&rw\.writerSem\)\)`
	barriers    = `race\.(Disable|Enable)\(\)`
)

// mutexRules tell operations on a Mutex: a lock once it is held, an unlock before it isn't any more.
var mutexRules = withLockRules([]rule{
	{in: anywhere, old: `\t"sync/atomic"`, new: `	_ "sync/atomic"`},
	{in: "(*Mutex).TryLock", old: `return false`, new: tellIf(hooklog.TryFail, "m") + "; return false", count: 2},
	{in: "(*Mutex).TryLock", old: acquire + `m\)\)`, new: tell(hooklog.TryLock, "m")},
	{in: "(*Mutex).Lock", old: acquire + `m\)\)`, new: tell(hooklog.Lock, "m")},
	{in: "(*Mutex).lockSlow", old: acquire + `m\)\)`, new: tell(hooklog.Lock, "m")},
	{in: "(*Mutex).Unlock", old: `race\.Release\(unsafe\.Pointer\(m\)\)`, new: tell(hooklog.Unlock, "m")},
})

// rwMutexRules: the two semaphores of a RWMutex stand for one lock. Its own Mutex is used between Disable and Enable; what
// doesn't use it needs neither.
var rwMutexRules = withLockRules([]rule{
	{in: anywhere, old: `\t"sync/atomic"`, new: `	_ "sync/atomic"`, to: 19},
	{in: "(*RWMutex).RLock", old: barriers, new: ``, count: 2},
	{in: "(*RWMutex).TryRLock", old: barriers, new: ``, count: 3},
	{in: "(*RWMutex).RUnlock", old: barriers, new: ``, count: 2},
	{in: "(*RWMutex).rUnlockSlow", old: barriers, new: ``},

	{in: "(*RWMutex).TryRLock", old: `return false`, new: tellIf(hooklog.TryRFail, "rw") + "; return false"},
	{in: "(*RWMutex).TryLock", old: `return false`, new: tellIf(hooklog.TryRFail, "rw") + "; return false", count: 2},
	{in: "(*RWMutex).RLock", old: acquireRead, new: tell(hooklog.RLock, "rw")},
	{in: "(*RWMutex).TryRLock", old: acquireRead, new: tell(hooklog.TryRLock, "rw")},
	{in: "(*RWMutex).RUnlock", old: `race\.ReleaseMerge\(unsafe\.Pointer\(&rw\.writerSem\)\)`, new: tell(hooklog.RUnlock, "rw")},
	{in: "(*RWMutex).Lock", old: acquireBoth, new: tell(hooklog.WLock, "rw") + "\n"},
	{in: "(*RWMutex).TryLock", old: acquireBoth, new: tell(hooklog.TryWLock, "rw") + "\n"},
	{in: "(*RWMutex).Unlock", old: `race\.Release\(unsafe\.Pointer\(&rw\.readerSem\)\)`, new: tell(hooklog.WUnlock, "rw")},
})

// onceRules tell who runs a Once's function, and who finds that it has run. Its Mutex and its word aren't told.
var onceRules = []rule{
	{in: anywhere, old: `import \(\n\t"sync/atomic"\n\)`, new: "import (\n\t_ \"sync/atomic\"; \"internal/race\"; \"unsafe\"\n)", to: 21},
	{in: anywhere, old: `import \(\n\t"sync/atomic"\n\)`, new: "import (\n\t\"sync/atomic\"; \"internal/race\"; \"unsafe\"\n)", from: 22},
	{in: anywhere, old: `atomic\.LoadUint32\(&o\.done\) == 0|!o\.done\.Load\(\)|o\.done(\.Load\(\))? == 0`,
		new: `recLoad(unsafe.Pointer(&o.done)) == 0`, count: 2},
	{in: "(*Once).Do", old: `(\n\t\to\.doSlow\(f\)\n\t\})\n`, new: "${1}; " + tellIf(hooklog.OnceDone, "o") + "\n"},
	{in: "(*Once).doSlow", old: `o\.m\.Lock\(\)`, new: `race.Disable(); o.m.Lock(); race.Enable()`},
	{in: "(*Once).doSlow", old: `defer o\.m\.Unlock\(\)`, new: `defer o.recUnlock()`},
	{in: "(*Once).doSlow", old: `defer (atomic\.StoreUint32\(&o\.done, 1\)|o\.done\.Store\(\w+\))\n`,
		new: "defer recAdd(unsafe.Pointer(&o.done), 1); " +
			tellIf(hooklog.OnceBegin, "o") + "; if race.Enabled { defer " + tell(hooklog.OnceEnd, "o") + " }\n"},
}

// fileRules: where an operation on the lock of a file goes on to change its word, that it has looked there isn't told.
var fileRules = []rule{
	{in: anywhere, old: `atomic\.LoadUint64\(&mu\.state\)`, new: `recLook(&mu.state)`, count: 5},
	{in: anywhere, old: `(if old&mutexClosed != 0 \{\n\t+)return`, new: `${1}atomic.LoadUint64(&mu.state); return`, count: 3},
}

const look = `
//go:norace
//go:noinline
func recLook(addr *uint64) uint64 { return *addr }
`

var (
	mutexWatch   = watch{calls: `^(race|atomic)\.`, known: []string{"race.Op"}}
	rwMutexWatch = watch{
		calls: `^(race|atomic|rw\.\w+)\.`,
		known: []string{"race.Op", "race.Enable", "race.Disable", "race.Read", "rw.w.Lock", "rw.w.TryLock", "rw.w.Unlock"},
	}
	onceWatch = watch{
		calls: `^(race|atomic|o\.\w+)\.`,
		known: []string{"race.Op", "race.Enable", "race.Disable", "o.m.Lock"},
	}
)

// onceUnlock is called by doSlow.
const onceUnlock = `
func (o *Once) recUnlock() {
	race.Disable()
	o.m.Unlock()
	race.Enable()
}
`

// plain has atomic operations that aren't told, for a package with locks.
const plain = `
//go:linkname recCAS runtime/internal/atomic.Cas
//go:noescape
func recCAS(addr unsafe.Pointer, old, new int32) bool

//go:linkname recAdd runtime/internal/atomic.Xadd
//go:noescape
func recAdd(addr unsafe.Pointer, delta int32) int32

//go:norace
//go:noinline
func recLoad(addr unsafe.Pointer) int32 { return *(*int32)(addr) }
`

// What internal/race has besides, with and without the tag race.
const (
	raceOps = `
// Op tells gorec of an operation on a lock.
//
//go:linkname Op runtime.RecOp
func Op(op uintptr, addr unsafe.Pointer)

// Label tells gorec the name of the running goroutine, as that of its test.
//
//go:linkname Label runtime.RecLabel
func Label(name string)
`
	noRaceOps = `
func Op(op uintptr, addr unsafe.Pointer) {
}

func Label(name string) {
}
`
)
