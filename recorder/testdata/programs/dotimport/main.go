// clean

package main

import (
	. "context"
	. "sync/atomic"
	"time"
)

func main() {
	var ready int32
	x, y := 0, 0
	add := AddInt32
	go func() {
		x = 1
		add(&ready, 1)
	}()
	for LoadInt32(&ready) == 0 {
		time.Sleep(time.Millisecond)
	}
	x++
	ctx, cancel := WithCancel(Background())
	go func() {
		y = 1
		cancel()
	}()
	<-ctx.Done()
	y++
}
