// races: total

package main

import "fmt"

func main() {
	free := make(chan struct{}, 2) // room for two
	done := make(chan struct{})
	total := 0
	for i := 1; i <= 2; i++ {
		go func(i int) {
			free <- struct{}{}
			total += i
			<-free
			done <- struct{}{}
		}(i)
	}
	<-done
	<-done
	fmt.Println(total > 0)
}
