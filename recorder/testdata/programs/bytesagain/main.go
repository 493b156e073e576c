// races: b_elem|b_elem_2
// why: two goroutines read both bytes of a word, one after the other, and the second reads beside a write of one

package main

import (
	"fmt"
	"time"
)

func sum(b []byte, result chan int) {
	n := 0
	for i := range b {
		n += int(b[i])
	}
	result <- n
}

func main() {
	b := make([]byte, 2)
	b[0], b[1] = 1, 2
	result := make(chan int)
	go sum(b, result)
	fmt.Println(<-result)
	go sum(b, result)
	time.Sleep(20 * time.Millisecond)
	b[1] = 3
	<-result
}
