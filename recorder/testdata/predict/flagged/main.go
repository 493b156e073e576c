// clean

// An atomic flag says whether a value is there.
package main

import (
	"sync/atomic"

	"example.com/predict/side"
)

func main() {
	var ready int32
	value := 0
	side.OneByOne(func() {
		value = 1
		atomic.StoreInt32(&ready, 1)
	}, func() {
		if atomic.LoadInt32(&ready) == 1 {
			value++
		}
	})
}
