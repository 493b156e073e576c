// hides: last

// A value is handed over, and both then write; a lock orders that.
package main

import (
	"sync"
	"time"

	"example.com/predict/side"
)

var (
	mu         sync.Mutex
	got, given int
	last       int
)

func main() {
	work := make(chan int)
	side.OneByOne(func() {
		for v := range work {
			mu.Lock()
			got += v
			mu.Unlock()
			time.Sleep(time.Millisecond)
			last = v
		}
	}, func() {
		work <- 1
		last = 0
		mu.Lock()
		given++
		mu.Unlock()
		close(work)
	})
}
