// hides: ready|value

// A flag is looked at before its lock is taken.
package main

import (
	"sync"
	"time"

	"example.com/predict/side"
)

var (
	mu      sync.Mutex
	gate    sync.Mutex
	ready   bool
	value   int
	entered [4]bool
)

func enter(i int) {
	gate.Lock()
	entered[i] = true
	gate.Unlock()
}

func get() int {
	if !ready {
		mu.Lock()
		if !ready {
			value = 1
			ready = true
		}
		mu.Unlock()
	}
	return value
}

func main() {
	side.Each(2, func(i int) {
		time.Sleep(time.Duration(i) * time.Millisecond)
		enter(i)
		get()
		enter(2 + i)
	})
}
