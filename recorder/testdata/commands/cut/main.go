package main

// What is after the 65,536th value that waits isn't in the trace, and with it the race on n.
func main() {
	n := 0
	c := make(chan int, 100_000)
	done := make(chan bool)
	go func() {
		c <- 0
		done <- true
	}()
	<-done
	for i := 0; i < 70_000; i++ {
		c <- i
	}
	go func() {
		<-c
		n++
		done <- true
	}()
	<-c
	n++
	<-done
}
