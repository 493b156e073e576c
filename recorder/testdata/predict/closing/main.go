// clean

// A closed channel says that the value is there.
package main

import (
	"sync"

	"example.com/predict/side"
)

func main() {
	var mu sync.Mutex
	stop := make(chan bool)
	value, looks := 0, 0
	side.OneByOne(func() {
		value = 1
		mu.Lock()
		close(stop)
		mu.Unlock()
	}, func() {
		mu.Lock()
		looks++
		stopped := false
		select {
		case <-stop:
			stopped = true
		default:
		}
		mu.Unlock()
		if stopped {
			value++
		}
	})
}
