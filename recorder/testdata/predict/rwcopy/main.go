// hides: cached

// Two write under a lock for reading; the lock of something else orders them.
package main

import (
	"sync"

	"example.com/predict/side"
)

var (
	mu     sync.RWMutex
	conf   = map[string]int{"a": 1}
	cached int
	log    sync.Mutex
	a, b   int
)

func main() {
	side.OneByOne(func() {
		mu.RLock()
		cached = conf["a"]
		mu.RUnlock()
		log.Lock()
		a++
		log.Unlock()
	}, func() {
		log.Lock()
		b++
		log.Unlock()
		mu.RLock()
		cached = conf["a"]
		mu.RUnlock()
	})
	println(cached)
}
