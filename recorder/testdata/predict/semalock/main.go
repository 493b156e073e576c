// hides: shared

// A channel with room for one is the lock.
package main

import "example.com/predict/side"

var (
	sem    = make(chan bool, 1)
	a, b   int
	shared int
)

func main() {
	side.OneByOne(func() {
		shared++
		sem <- true
		a++
		<-sem
	}, func() {
		sem <- true
		b++
		<-sem
		shared++
	})
}
