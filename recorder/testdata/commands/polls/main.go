// Polls counts in a goroutine that asks again and again whether it is to end, while two others pass a ball; nobody waits for it.
package main

import (
	"sync/atomic"
	"time"
)

var (
	ended int32
	total int
)

func main() {
	go func() {
		for atomic.LoadInt32(&ended) == 0 {
			total++
			time.Sleep(100 * time.Microsecond)
		}
		select {}
	}()
	ball := make(chan int)
	go func() {
		for n := range ball {
			ball <- n + 1
		}
	}()
	for n := 0; n < 60000; n++ {
		ball <- n
		<-ball
	}
	atomic.StoreInt32(&ended, 1)
	time.Sleep(50 * time.Millisecond)
	println(total > 0)
}
