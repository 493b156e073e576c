// clean

// A map is full once all have changed it.
package main

import (
	"sync"

	"example.com/predict/side"
)

func main() {
	var mu sync.Mutex
	seen := map[int]bool{}
	var values [3]int
	side.Each(4, func(i int) {
		if i < 3 {
			values[i] = i
			mu.Lock()
			seen[i] = true
			mu.Unlock()
			return
		}
		for full := false; !full; {
			mu.Lock()
			full = len(seen) == 3
			mu.Unlock()
		}
		for i := range values {
			values[i]++
		}
	})
}
