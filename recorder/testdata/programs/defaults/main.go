// clean

package main

import (
	"fmt"
	"runtime"
)

func main() {
	c := make(chan int, 1)
	var none chan int
	x := 0
	go func() {
		x = 5
		c <- 1
	}()
	for {
		select {
		case <-c:
			fmt.Println(x)
			return
		case none <- 1:
		default:
			runtime.Gosched()
		}
	}
}
