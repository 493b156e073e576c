// clean

// Who swaps first is the owner.
package main

import (
	"sync/atomic"

	"example.com/predict/side"
)

func main() {
	var taken int32
	value := 0
	won := make(chan bool)
	side.Each(2, func(i int) {
		if atomic.CompareAndSwapInt32(&taken, 0, 1) {
			value++
			close(won)
		} else {
			<-won
			println(value)
		}
	})
}
