// hides: price

// An RWMutex orders a write and a read outside of it.
package main

import (
	"sync"

	"example.com/predict/side"
)

var (
	mu     sync.RWMutex
	stock  = 3
	price  int
	orders int
)

func main() {
	side.OneByOne(func() {
		price = 5
		mu.Lock()
		orders++
		mu.Unlock()
	}, func() {
		mu.RLock()
		n := stock
		mu.RUnlock()
		println(n * price)
	})
}
