// 500,000 values go through three channels, one of them without a buffer.
package main

import "fmt"

func pass(in <-chan int, out chan<- int) {
	for v := range in {
		out <- v + 1
	}
	close(out)
}

func main() {
	a, b, c := make(chan int, 64), make(chan int), make(chan int, 64)
	go func() {
		for i := 0; i < 500000; i++ {
			a <- i
		}
		close(a)
	}()
	go pass(a, b)
	go pass(b, c)
	sum := 0
	for v := range c {
		sum += v
	}
	fmt.Println(sum)
}
