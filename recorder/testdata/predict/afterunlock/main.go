// hides: n

// The second writes once it has unlocked; both sections have to be exchanged, so not each run tells it.
package main

import (
	"sync"

	"example.com/predict/side"
)

var (
	mu   sync.Mutex
	a, b int
	n    int
)

func main() {
	side.OneByOne(func() {
		mu.Lock()
		a++
		n = 1
		mu.Unlock()
	}, func() {
		mu.Lock()
		b++
		mu.Unlock()
		n = 2
	})
}
