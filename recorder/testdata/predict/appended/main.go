// hides: errs, errs_elem

// Errors are gathered outside of the lock.
package main

import (
	"sync"
	"time"

	"example.com/predict/side"
)

var (
	mu   sync.Mutex
	jobs [3]bool
	errs []string
)

func do(i int) {
	errs = append(errs, "failed")
	mu.Lock()
	jobs[i] = true
	mu.Unlock()
}

func main() {
	side.Each(3, func(i int) {
		time.Sleep(time.Duration(i) * time.Millisecond)
		mu.Lock()
		started := jobs[i]
		mu.Unlock()
		if !started {
			do(i)
		}
	})
	println(len(errs))
}
