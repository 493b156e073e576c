// hides: total

// One writes before its critical section, the other after its own.
package main

import (
	"sync"

	"example.com/predict/side"
)

var (
	mu    sync.Mutex
	a, b  int
	total int
)

func first() {
	total = 1
	mu.Lock()
	a++
	mu.Unlock()
}

func second() {
	mu.Lock()
	b++
	mu.Unlock()
	total = 2
}

func main() {
	side.OneByOne(first, second)
	println(a, b, total)
}
