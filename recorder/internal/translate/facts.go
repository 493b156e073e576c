package translate

import (
	"strings"

	"gorace.local/recorder/internal/symbols"
)

// facts are what is known of a call from its function, and of a site from the calls on its stack.
type facts uint16

// Facts of both. Where a stack has one of the last six, the call that it is about has it.
const (
	inLibrary facts = 1 << iota // of Go's own source; of a stack: each call is
	inRuntime                   // of package runtime; of a stack: each call is
	ofMap                       // it is the runtime's code of maps
	inLock                      // of a Mutex, a RWMutex or a WaitGroup
	inOnce                      // of a Once's Do
	isPrivate                   // what it orders is nobody's business: private.go
	isHidden                    // nor is what it accesses
	isKin                       // it is in a package some functions of which have private orders, as where that sets up its memory
	isPassing                   // what it writes is memory that private orders pass on

	// Of calls alone.
	inAtomics // of package sync/atomic
	inSync    // another one of package sync, or of internal/sync
	forOthers // it does what its caller wants, whose orders count
	callsHook // it is one of the hooks, or calls them for package sync and others

	// Of stacks alone.
	beneath // some call is of a function whose orders are private
	isOwn   // it is code outside the library, or the runtime on its behalf
)

// unknownStack are those of a site whose stack nobody knows: it may be the program's own.
const unknownStack = isOwn

// factsOfCall are those of a call.
func (t *Translator) factsOfCall(f symbols.Frame) (is facts) {
	pkg := packageOf(f.Function)
	rest := strings.TrimPrefix(f.Function, pkg+".")
	if isHook(pkg, rest) {
		return callsHook
	}
	if t.symbols.IsStandard(f) {
		is |= inLibrary
	}
	switch {
	case isRuntime(pkg):
		is |= inRuntime
	case pkg == "sync/atomic":
		is |= inAtomics
	case pkg == "sync" && (strings.HasPrefix(rest, "(*Once).Do") || strings.HasPrefix(rest, "(*Once).doSlow")):
		is |= inOnce
	case pkg == "sync" || pkg == "internal/sync":
		if is |= inSync; isLockOf(rest) {
			is |= inLock
		}
	}
	if strings.HasPrefix(f.Function, "runtime.map") || strings.HasPrefix(f.Function, "internal/runtime/maps.") {
		is |= ofMap
	}
	if doesForOthers(pkg) {
		is |= forOthers
	}
	if p := private[pkg]; p != nil && !(t.InTurn && givesPlaces(pkg, rest)) {
		if is&forOthers == 0 {
			is |= isKin
		}
		switch {
		case p.has(rest) && begins(rest, p.passes, false):
			is |= isPrivate | isPassing
		case p.has(rest) && p.shares:
			is |= isPrivate
		case p.has(rest):
			is |= isPrivate | isHidden
		case p.helped:
			is |= forOthers
		}
	}
	return is
}

// isHook reports whether a function is one of the hooks', or one that calls them for package sync and others.
func isHook(pkg, name string) bool {
	if pkg != "runtime" {
		return pkg == "internal/race"
	}
	switch {
	case strings.HasPrefix(name, "recv"), strings.HasPrefix(name, "record"), name == "recovery":
		return false
	}
	for _, begin := range [...]string{"rec", "Rec", "race", "Race"} {
		if strings.HasPrefix(name, begin) {
			return true
		}
	}
	return false
}

// packageOf is the path of a function's package.
func packageOf(function string) string { return symbols.PackageOf(function) }

// isRuntime reports whether a package is a part of the runtime.
func isRuntime(pkg string) bool {
	return pkg == "runtime" || strings.HasPrefix(pkg, "internal/runtime/") || strings.HasPrefix(pkg, "runtime/internal/")
}

// isLockOf reports whether a function of package sync is a lock's, whose atomic operations are a part of its steps.
func isLockOf(name string) bool {
	for _, begin := range [...]string{"(*Mutex)", "(*RWMutex)", "(*WaitGroup)", "runtime_"} {
		if strings.HasPrefix(name, begin) {
			return true
		}
	}
	return false
}

// callsAt are the facts of the calls that a return address stands for.
func (t *Translator) callsAt(ret uint64) []facts {
	calls, ok := t.calls[ret]
	if !ok {
		for _, f := range t.symbols.Frames(ret) {
			calls = append(calls, t.factsOfCall(f))
		}
		t.calls[ret] = calls
	}
	return calls
}

// factsOf are those of a stack. What a call does for another one is told by the first call that doesn't.
func (t *Translator) factsOf(stack []uint64) facts {
	var calls []facts
	all, any := inLibrary|inRuntime, facts(0)
	for _, ret := range stack {
		for _, is := range t.callsAt(ret) {
			if is&callsHook == 0 {
				calls = append(calls, is)
				all &= is
				any |= is
			}
		}
	}
	if len(calls) == 0 {
		return unknownStack
	}
	first := func(without facts) facts {
		for _, is := range calls {
			if is&without == 0 {
				return is
			}
		}
		return inLibrary
	}
	own := first(inRuntime)
	is := all | calls[0]&ofMap | own&isKin | first(inAtomics|inRuntime)&inLock
	if own&inLibrary == 0 {
		is |= isOwn
	}
	if first(inAtomics|inRuntime|inSync)&inOnce != 0 {
		is |= inLock
	}
	if any&isPrivate != 0 {
		is |= beneath | firstPrivate(calls)&(isPrivate|isHidden|isPassing)
	}
	return is
}

// firstPrivate is the first call whose orders are private, or that does nothing for others.
func firstPrivate(calls []facts) facts {
	for _, is := range calls {
		if is&isPrivate != 0 || is&forOthers == 0 {
			return is
		}
	}
	return 0
}
