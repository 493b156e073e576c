// clean

// Who is the third alone has the value.
package main

import (
	"sync"

	"example.com/predict/side"
)

func main() {
	var mu sync.Mutex
	n, shared := 0, 0
	side.Each(3, func(i int) {
		mu.Lock()
		n++
		last := n == 3
		mu.Unlock()
		if last {
			shared++
		}
	})
	for i := 0; i < 3; i++ {
	}
	println(shared)
}
