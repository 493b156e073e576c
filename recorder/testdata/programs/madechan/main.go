// clean

package main

import (
	"fmt"
	"reflect"
	"time"
)

// Both sides choose on a channel that the program didn't make itself.
func main() {
	numbers := reflect.MakeChan(reflect.TypeOf((chan int)(nil)), 0).Interface().(chan int)
	lent, quit, sums := make(chan int), make(chan bool), make(chan int)
	go func() {
		sum := 0
		for i := 0; i < 20; i++ {
			select {
			case n := <-numbers:
				sum += n
			case n := <-lent:
				sum += n
			case <-quit:
			}
		}
		sums <- sum
	}()
	time.Sleep(time.Millisecond)
	reflect.ValueOf(lent).Len()
	for i := 0; i < 10; i++ {
		for _, to := range []chan int{numbers, lent} {
			select {
			case to <- i:
			case <-quit:
			}
		}
	}
	fmt.Println(<-sums)
}
