// hides: box_value

// Set writes before it locks, get reads after its lock.
package main

import (
	"sync"

	"example.com/predict/side"
)

type box struct {
	mu       sync.Mutex
	value    int
	sets     int
	gets     int
	lastUser string
}

func (b *box) set(v int) {
	b.value = v
	b.mu.Lock()
	defer b.mu.Unlock()
	b.sets++
}

func (b *box) get() int {
	b.mu.Lock()
	b.gets++
	b.mu.Unlock()
	return b.value
}

func main() {
	b := &box{}
	side.OneByOne(func() {
		b.set(1)
	}, func() {
		b.get()
	})
}
