// races: first

package main

import (
	"errors"
	"fmt"
	"sync"
)

func main() {
	var first error
	var wg sync.WaitGroup
	for i := 0; i < 3; i++ {
		wg.Add(1)
		go func() {
			defer wg.Done()
			if first == nil {
				first = errors.New("failed")
			}
		}()
	}
	wg.Wait()
	fmt.Println(first)
}
