// races: b_elem

package main

import (
	"fmt"
	"os"
)

func main() {
	f, err := os.Open(os.Args[0])
	if err != nil {
		panic(err)
	}
	b := make([]byte, 4)
	done := make(chan error)
	go func() {
		_, err := f.Read(b)
		done <- err
	}()
	b[1] = 1
	fmt.Println(<-done)
}
