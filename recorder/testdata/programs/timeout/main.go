// clean

package main

import (
	"fmt"
	"time"
)

func slow(d time.Duration) <-chan string {
	c := make(chan string, 1)
	go func() {
		time.Sleep(d)
		c <- "answer"
	}()
	return c
}

func main() {
	for _, d := range []time.Duration{0, 50 * time.Millisecond} {
		select {
		case s := <-slow(d):
			fmt.Println(s)
		case <-time.After(10 * time.Millisecond):
			fmt.Println("timeout")
		}
	}
	fired := make(chan int)
	x := 0
	time.AfterFunc(time.Millisecond, func() { x = 1; fired <- 1 })
	<-fired
	fmt.Println(x)
}
