// hides: max

// A greatest value beside counters that are guarded.
package main

import (
	"sync"
	"sync/atomic"

	"example.com/predict/side"
)

var (
	mu    sync.Mutex
	a, b  int
	calls int64
	max   int
)

func main() {
	side.OneByOne(func() {
		max = 3
		mu.Lock()
		a++
		mu.Unlock()
	}, func() {
		atomic.StoreInt64(&calls, 1)
		mu.Lock()
		b++
		mu.Unlock()
		if max < 4 {
			max = 4
		}
	})
	println(atomic.LoadInt64(&calls))
}
