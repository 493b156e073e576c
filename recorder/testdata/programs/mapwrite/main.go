// races: m

package main

import (
	"fmt"
	"time"
)

func main() {
	m := make(map[int]int)
	done := make(chan struct{})
	go func() {
		m[1] = 1
		close(done)
	}()
	time.Sleep(time.Millisecond)
	m[2] = 2
	<-done
	for k, v := range m {
		fmt.Print(k == v, " ")
	}
	fmt.Println()
}
