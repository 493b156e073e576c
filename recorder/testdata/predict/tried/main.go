// hides: state

// A lock that is tried orders the two.
package main

import (
	"sync"

	"example.com/predict/side"
)

var (
	mu         sync.Mutex
	hits, miss int
	state      int
)

func main() {
	side.OneByOne(func() {
		state = 1
		if mu.TryLock() {
			hits++
			mu.Unlock()
		}
	}, func() {
		mu.Lock()
		miss++
		mu.Unlock()
		state = 2
	})
}
