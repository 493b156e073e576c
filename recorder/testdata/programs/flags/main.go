// races: first, second, third

package main

// Variables that are smaller than a word may share one.
func main() {
	c := make(chan bool)
	first, second, third := false, false, byte(0)
	go func() {
		first = true
		second = true
		third++
		c <- first && second
	}()
	third = 3
	second = true
	first = true
	<-c
}
