// clean

package main

import (
	"fmt"
	"time"
)

func main() {
	x := 1
	t := time.NewTimer(time.Millisecond)
	done := make(chan int)
	go func() {
		<-t.C
		done <- x
	}()
	fmt.Println(<-done)
	tick := time.NewTicker(time.Millisecond)
	<-tick.C
	tick.Stop()
	<-time.After(time.Millisecond)
}
