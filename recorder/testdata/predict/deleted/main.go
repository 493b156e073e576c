// clean

// Who takes the last key out of a map has all.
package main

import (
	"sync"

	"example.com/predict/side"
)

func main() {
	var mu sync.Mutex
	left := map[int]bool{0: true, 1: true, 2: true}
	values := [3]int{}
	side.Each(3, func(i int) {
		values[i] = 1
		mu.Lock()
		delete(left, i)
		n := len(left)
		mu.Unlock()
		if n == 0 {
			for i := range values {
				values[i]++
			}
		}
	})
	for i := 0; i < 3; i++ {
	}
}
