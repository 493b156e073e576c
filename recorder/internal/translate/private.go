package translate

import "strings"

// A privacy is about orders of the library that no program may rely on, since nothing promises them: races would hide behind
// a call that happens to take a lock. What the functions order has no records, and neither has memory that they use and
// the program doesn't.
type privacy struct {
	pkg       string
	functions []string // their names, or how they begin; none: all of the package
	whole     bool     // these are whole names
	helped    bool     // what other functions of the package do is for those that call them
	shares    bool     // the functions also read and write memory that they are given; else no access of theirs is told
	passes    []string // of these, how those begin that write what the package passes on from one goroutine to another
}

// privacies are the orders that nobody promises.
var privacies = []privacy{
	// The pool of printers passes memory on from one call to another. A Writer may hand it to others up to its return.
	{pkg: "fmt", shares: true, passes: []string{"(*buffer)", "(*fmt)", "(*pp)"}},

	// Sorting the keys of a map that is printed is a part of that.
	{pkg: "internal/fmtsort", shares: true},

	// The functions of the package share a source under a lock, which is found by an atomic pointer. Sources of the program's
	// own have no lock, so their memory counts.
	{pkg: "math/rand", functions: []string{"(*lockedSource)", "(*runtimeSource)", "globalRand", "Seed"}, helped: true, shares: true},

	// What a test reads of its environment is noted by an atomic pointer and a lock.
	{pkg: "internal/testlog"},

	// Tests that run beside one another wait for a place under a lock (the channel by which one gets it counts), and
	// for one another to write their names; all note in one map that they run.
	{pkg: "testing", functions: []string{"(*testContext)", "(*testState)", "(*chattyPrinter)", "tRunner", "(*T).Parallel"}},

	// Writers of one file wait for one another, as for os.Stdout. What closes a file or sets a deadline comes before a Write that it
	// ends: private operations come after others.
	{pkg: "internal/poll", functions: []string{"(*FD).Write", "(*FD).Pwrite"}, whole: true, helped: true},

	// Package runtime has locks of its own, as of types that reflect makes and of metrics.
	{pkg: "runtime", functions: []string{
		"reflectOffsLock", "reflectOffsUnlock", "resolveNameOff", "resolveTypeOff", "(*_type)", "rtype", "(*rtype)", "metricsLock",
		"metricsUnlock", "moduleTypelinks",
	}},
	{pkg: "reflect", functions: []string{"addReflectOff", "resolveNameOff", "resolveTypeOff", "resolveTextOff"}, helped: true},

	// A counter of non-default behavior is registered once, by who meets it first.
	{pkg: "internal/godebug"},
	{pkg: "internal/godebugs"},

	// The environment is copied once, and is read and written under a lock.
	{pkg: "syscall", functions: []string{
		"Getenv", "Setenv", "Unsetenv", "Clearenv", "Environ", "copyenv", "runtimeSetenv", "runtimeUnsetenv",
	}},
}

// private has them by their packages.
var private = func() map[string]*privacy {
	m := map[string]*privacy{}
	for i := range privacies {
		m[privacies[i].pkg] = &privacies[i]
	}
	return m
}()

// has reports whether a function is one of these, by its name in its package.
func (p *privacy) has(name string) bool {
	return len(p.functions) == 0 || begins(name, p.functions, p.whole)
}

// begins reports whether a name begins with one of these, or, if they are whole names, is one or in one.
func begins(name string, with []string, whole bool) bool {
	for _, begin := range with {
		rest := strings.TrimPrefix(name, begin)
		if rest != name && (!whole || rest == "" || rest[0] == '.') {
			return true
		}
	}
	return false
}

// givesPlaces reports whether a function has parallel tests wait for a place. Where there is only one, tests may rely on it that they
// run one after another.
func givesPlaces(pkg, name string) bool {
	return pkg == "testing" && (strings.HasPrefix(name, "(*testContext)") || strings.HasPrefix(name, "(*testState)"))
}

// doesForOthers reports whether the functions of a package do what another one wants, whose orders count then.
func doesForOthers(pkg string) bool {
	switch pkg {
	case "sync", "sync/atomic", "internal/race", "internal/sync", "reflect", "internal/bytealg", "strconv", "unicode/utf8":
		return true
	}
	return isRuntime(pkg)
}
