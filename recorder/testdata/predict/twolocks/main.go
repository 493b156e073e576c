// hides: total

// Each holds a lock of its own.
package main

import (
	"sync"

	"example.com/predict/side"
)

var (
	left, right, common sync.Mutex
	total, mine, yours  int
)

func main() {
	side.OneByOne(func() {
		left.Lock()
		total++
		left.Unlock()
		common.Lock()
		mine++
		common.Unlock()
	}, func() {
		common.Lock()
		yours++
		common.Unlock()
		right.Lock()
		total++
		right.Unlock()
	})
}
