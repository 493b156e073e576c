// hides: out

// Two write to a buffer, and the lock of something else orders them.
package main

import (
	"bytes"
	"sync"

	"example.com/predict/side"
)

var (
	out    bytes.Buffer
	mu     sync.Mutex
	counts [2]int
)

func count(i int) {
	mu.Lock()
	defer mu.Unlock()
	counts[i]++
}

func main() {
	side.OneByOne(func() {
		out.WriteString("a")
		count(0)
	}, func() {
		count(1)
		out.WriteString("b")
	})
}
