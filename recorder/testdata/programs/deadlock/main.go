// races: n
// status: 2

package main

import "fmt"

func main() {
	n := 0
	c := make(chan int)
	go func() {
		n = 1
		<-c
	}()
	n = 2
	fmt.Println(n > 0)
	var never chan int
	<-never
}
