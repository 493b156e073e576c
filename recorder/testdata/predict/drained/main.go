// hides: closing

// Messages may be sent in the other order.
package main

import "example.com/predict/side"

var closing bool

func main() {
	events := make(chan int, 4)
	lock := make(chan bool, 1)
	side.OneByOne(func() {
		closing = true
		lock <- true
		select {
		case events <- 1:
		default:
		}
		<-lock
	}, func() {
		lock <- true
		events <- 2
		<-lock
		closing = false
	})
}
