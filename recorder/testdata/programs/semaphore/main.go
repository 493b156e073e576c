// clean

package main

import "fmt"

func main() {
	free := make(chan bool, 1)
	done := make(chan bool)
	total := 0
	for i := 1; i <= 4; i++ {
		go func(i int) {
			free <- true
			total += i
			<-free
			done <- true
		}(i)
	}
	for i := 0; i < 4; i++ {
		<-done
	}
	fmt.Println(total)
}
