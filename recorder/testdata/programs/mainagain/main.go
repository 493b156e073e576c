// races: n

package main

import "fmt"

var depth, n int

// The function main calls itself.
func main() {
	depth++
	if depth > 1 {
		return
	}
	main()
	done := make(chan bool)
	go func() { n++; done <- true }()
	n++
	<-done
	fmt.Println(depth, n)
}
