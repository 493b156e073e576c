// Rounds writes a variable in one goroutine after another.
package main

var total int

func main() {
	done := make(chan bool)
	for i := 0; i < 400; i++ {
		go func() {
			total = i
			done <- true
		}()
		<-done
	}
}
