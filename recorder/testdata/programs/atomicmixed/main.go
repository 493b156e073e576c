// races: hits_atomic_g1, hits_atomic_g2

package main

import (
	"fmt"
	"sync"
	"sync/atomic"
)

var hits int64

func main() {
	var wg sync.WaitGroup
	wg.Add(2)
	for i := 0; i < 2; i++ {
		go func() {
			defer wg.Done()
			atomic.AddInt64(&hits, 1)
		}()
	}
	if hits > 2 { // an atomic load is missing
		fmt.Println("never")
	}
	wg.Wait()
	fmt.Println(hits)
}
