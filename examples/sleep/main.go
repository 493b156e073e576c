package main

import "time"

var total int

func add(n int) { total += n }

func main() {
	go add(1)
	time.Sleep(100 * time.Millisecond) // surely added by now
	println(total)
}
