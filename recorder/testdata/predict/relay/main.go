// hides: result

// The order goes over a goroutine between.
package main

import (
	"sync"

	"example.com/predict/side"
)

var (
	mu     sync.Mutex
	a, b   int
	result int
)

func main() {
	next := make(chan bool)
	side.OneByOne(func() {
		result = 1
		mu.Lock()
		a++
		mu.Unlock()
	}, func() {
		mu.Lock()
		b++
		mu.Unlock()
		next <- true
	}, func() {
		<-next
		result = 2
	})
}
