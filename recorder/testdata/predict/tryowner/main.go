// clean

// Who doesn't get the lock stays away.
package main

import (
	"sync"

	"example.com/predict/side"
)

func main() {
	var mu sync.Mutex
	value, skipped := 0, [3]bool{}
	side.Each(3, func(i int) {
		if mu.TryLock() {
			value++
			mu.Unlock()
		} else {
			skipped[i] = true
		}
	})
	for i := 0; i < 3; i++ {
	}
}
