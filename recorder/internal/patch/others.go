package patch

// changes are those of all files.
var changes = []change{
	{file: "runtime/chan.go", rules: channelRules, known: channelWatch},
	{file: "runtime/select.go", rules: selectRules, known: channelWatch},
	{file: "runtime/sema.go", rules: semaRules, known: semaWatch},
	{file: "sync/mutex.go", rules: mutexRules, known: mutexWatch, to: 23},
	{file: "internal/sync/mutex.go", rules: mutexRules, known: mutexWatch, more: plain, from: 24},
	{file: "sync/rwmutex.go", rules: rwMutexRules, known: rwMutexWatch, more: plain},
	{file: "sync/once.go", rules: onceRules, known: onceWatch, more: onceUnlock},
	{file: "internal/poll/fd_mutex.go", rules: fileRules, more: look},
	{file: "internal/race/race.go", more: raceOps},
	{file: "internal/race/norace.go", more: noRaceOps},
	{file: "runtime/race.go", rules: raceRules, special: patchRace},
	{file: "runtime/race_amd64.s", special: replaceAssembly},

	// where an object begins, its size and its type; what is smaller than 16 bytes and has no pointers ends where its 16 bytes end
	{file: "runtime/malloc.go", rules: []rule{
		{in: "mallocgc", old: `racemalloc\(x, size\)`, to: 23,
			new: "p := x; if noscan && dataSize < maxTinySize { p = add(x, size-dataSize) }; recMalloc(p, dataSize, typ)"},
		{in: "mallocgc", old: `racemalloc\(x, size-asanRZ\)`, new: `recMalloc(x, size-asanRZ, typ)`, from: 24},
	}},
	// append says the type of elements without pointers, too; nothing else depends on it
	{file: "runtime/slice.go", rules: []rule{
		{in: "growslice", old: `mallocgc\(capmem, nil, false\)`, new: `mallocgc(capmem, et, false)`},
	}},
	// what comes before Reset of a Ticker comes before its next value, too; later it goes by resetTimer, which says so
	{file: "runtime/time.go", to: 22, rules: []rule{
		{in: "modTimer", old: `\bmodtimer\(`, new: "if raceenabled { racerelease(unsafe.Pointer(t)) }; modtimer("},
	}},

	// the end of a program with any status
	{file: "runtime/proc.go", rules: []rule{
		{in: "os_beforeExit", old: `if (exitCode == 0 && )?raceenabled \{`, new: `if raceenabled {`},
	}},
	{file: "runtime/runtime.go", rules: []rule{{in: "syscall_Exit", old: `exit\(`, new: `if raceenabled { racefini() }; exit(`}}},
	// what is still to be told is told before a program ends by a panic
	{file: "runtime/panic.go", rules: []rule{
		{in: "fatalthrow", old: `\b(crash\(\)|exit\(2\))`, new: `if raceenabled { recFinish() }; $1`, count: 2, to: 19},
		{in: "fatalthrow", old: `\b(crash\(\)|exit\(2\))`, new: `if raceenabled { recFinish() }; $1`, count: 3, from: 21},
		{in: "fatalpanic", old: `\b(crash\(\)|exit\(2\))`, new: `if raceenabled { recFinish() }; $1`, count: 2},
	}},
	// the end of a coroutine, as of iter.Pull, which doesn't end by goexit1
	{file: "runtime/coro.go", from: 22, rules: []rule{{in: "coroexit", old: `\bmcall\(`, new: "if raceenabled { racegoend() }; mcall("}}},

	// which test, fuzz test or benchmark a goroutine runs
	{file: "testing/testing.go", more: label, rules: []rule{
		{in: "tRunner", old: `t\.runner = callerName\(0\)\n`, new: "t.runner = callerName(0); labelGoroutine(t.Name())\n"},
	}},
	{file: "testing/fuzz.go", rules: []rule{{in: "fRunner", old: `^.*\{`, new: "$0 labelGoroutine(f.Name())"}}},
	{file: "testing/benchmark.go", rules: []rule{{in: "(*B).runN", old: `^.*\{`, new: "$0 labelGoroutine(b.Name())"}}},
}

const label = `
func labelGoroutine(name string) {
	if race.Enabled {
		race.Label(name)
	}
}
`
