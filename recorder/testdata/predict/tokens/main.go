// hides: free

// Who takes both tokens may be the second.
package main

import "example.com/predict/side"

var free, busy int

func main() {
	tokens := make(chan int, 2)
	side.OneByOne(func() {
		free = 2
		tokens <- 1
		tokens <- 2
		<-tokens
		<-tokens
	}, func() {
		tokens <- 1
		tokens <- 2
		<-tokens
		<-tokens
		free = 1
	})
	println(busy)
}
