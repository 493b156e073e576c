// races: err

package main

import (
	"errors"
	"fmt"
)

func work(done chan bool) (err error) {
	go func() {
		err = errors.New("late")
		done <- true
	}()
	return nil
}

func main() {
	done := make(chan bool, 1)
	err := work(done)
	<-done
	fmt.Println(err == nil)
}
