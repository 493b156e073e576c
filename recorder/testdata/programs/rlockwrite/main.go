// races: n

package main

import (
	"fmt"
	"sync"
)

func main() {
	var mu sync.RWMutex
	var wg sync.WaitGroup
	n := 0
	wg.Add(2)
	for i := 0; i < 2; i++ {
		go func() {
			defer wg.Done()
			mu.RLock()
			n++ // under a lock for reading
			mu.RUnlock()
		}()
	}
	wg.Wait()
	fmt.Println(n > 0)
}
