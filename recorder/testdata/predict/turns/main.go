// clean

// A number that is guarded says whose turn it is.
package main

import (
	"runtime"
	"sync"

	"example.com/predict/side"
)

func main() {
	var mu sync.Mutex
	turn, shared := 0, 0
	side.Each(2, func(i int) {
		for n := 0; n < 3; {
			mu.Lock()
			mine := turn%2 == i
			mu.Unlock()
			if !mine {
				runtime.Gosched()
				continue
			}
			shared++
			n++
			mu.Lock()
			turn++
			mu.Unlock()
		}
	})
	println(shared)
}
