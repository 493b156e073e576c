// races: n|Value_Elem

package main

import (
	"fmt"
	"reflect"
)

func main() {
	n := 1
	done := make(chan bool)
	go func() {
		reflect.ValueOf(&n).Elem().SetInt(5)
		done <- true
	}()
	n++
	<-done
	fmt.Println(n > 0)
}
