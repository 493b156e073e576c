// clean

// A list under a condition hands over elements.
package main

import (
	"sync"

	"example.com/predict/side"
)

func main() {
	var mu sync.Mutex
	full := sync.NewCond(&mu)
	var items []int
	values := [3]int{}
	side.Each(4, func(i int) {
		if i < 3 {
			values[i] = i
			mu.Lock()
			items = append(items, i)
			mu.Unlock()
			full.Signal()
			return
		}
		for range values {
			mu.Lock()
			for len(items) == 0 {
				full.Wait()
			}
			i := items[0]
			items = items[1:]
			mu.Unlock()
			values[i]++
		}
	})
}
