// races: shared; perhaps: node_value

package main

import "fmt"

type node struct{ value int }

var shared *node

func main() {
	done := make(chan bool)
	go func() {
		shared = &node{value: 7}
		done <- true
	}()
	if n := shared; n != nil {
		fmt.Println(n.value)
	}
	<-done
}
