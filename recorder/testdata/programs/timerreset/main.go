// races: y

package main

import (
	"fmt"
	"time"
)

func main() {
	x, y := 0, 0
	done := make(chan bool)
	t := time.AfterFunc(time.Hour, func() {
		fmt.Println(x)
		y++
		done <- true
	})
	x = 1
	t.Reset(time.Millisecond)
	y++ // beside the function
	<-done
	x = 2
	t.Reset(time.Millisecond)
	<-done

	w := time.NewTimer(time.Hour)
	k := time.NewTicker(time.Hour)
	go func() {
		<-w.C
		fmt.Println(x)
		done <- true
		<-k.C
		fmt.Println(x)
		done <- true
	}()
	w.Stop()
	x = 3
	w.Reset(time.Millisecond)
	<-done
	x = 4
	k.Reset(time.Millisecond)
	<-done
	k.Stop()
}
