// clean

package main

import "fmt"

func try(c chan int) (err error) {
	defer func() {
		if r := recover(); r != nil {
			err = fmt.Errorf("recovered: %v", r)
		}
	}()
	close(c)
	return nil
}

func main() {
	c := make(chan int)
	done := make(chan bool)
	go func() {
		fmt.Println(try(c))
		done <- true
	}()
	<-done
	fmt.Println(try(c))
}
