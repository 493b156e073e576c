// clean

// A pointer that is guarded leads to what isn't.
package main

import (
	"sync"

	"example.com/predict/side"
)

type config struct{ limit int }

func main() {
	var mu sync.RWMutex
	current := &config{1}
	side.OneByOne(func() {
		next := &config{}
		next.limit = 2
		mu.Lock()
		current = next
		mu.Unlock()
	}, func() {
		mu.RLock()
		c := current
		mu.RUnlock()
		println(c.limit)
	})
}
