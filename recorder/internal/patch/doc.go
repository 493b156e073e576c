// Package patch makes the overlay by which `go build` builds a program that gorec records.
//
// The compiler calls functions of package runtime at each access to memory when it is given -race, and the standard
// library says there what orders goroutines. Behind these calls Go has the race detector's object, written in C++.
// The overlay puts gorec's own functions (folder _runtime) in its place, and patches the sources that tell too little:
// channels and select, the wake of a Cond, locks, Once, where memory is allocated, and which test a goroutine runs.
// The installed Go stays as it is.
//
// A patch names a function, a text in it and how often it stands there. So a version of Go is patched as it is known,
// or refused: what the rules don't know could be an order that nobody records, which makes false races. Only versions
// are supported that the suites of the recorder have passed.
//
// Each replacement keeps the number of lines, so places in the standard library are those of the user's own Go.
package patch
