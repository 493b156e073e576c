package main

import "example.com/commands/inner/internal/count"

func main() {
	done := make(chan int)
	go func() { count.N++; done <- 1 }()
	<-done
	count.N++
	println(count.N)
}
