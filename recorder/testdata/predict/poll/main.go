// hides: status

// What another finds no value from a channel before, and locks.
package main

import (
	"sync"

	"example.com/predict/side"
)

var (
	mu     sync.Mutex
	polls  int
	starts int
	status string
)

func main() {
	stop := make(chan bool)
	side.OneByOne(func() {
		status = "runs"
		mu.Lock()
		starts++
		mu.Unlock()
	}, func() {
		select {
		case <-stop:
		default:
			mu.Lock()
			polls++
			mu.Unlock()
		}
		status = "polled"
	})
	close(stop)
}
