// hides: counts_elem

// One element of an array.
package main

import (
	"sync"

	"example.com/predict/side"
)

var (
	mu     sync.Mutex
	counts [4]int
	sums   [2]int
)

func main() {
	side.OneByOne(func() {
		for i := range counts {
			counts[i]++
		}
		mu.Lock()
		sums[0] = 4
		mu.Unlock()
	}, func() {
		mu.Lock()
		sums[1] = 4
		mu.Unlock()
		counts[2] = 0
	})
}
