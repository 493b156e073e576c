// clean
// why: calls go deeper than gorec tells, and what other goroutines do is told all the same

package main

import (
	"fmt"
	"sync"
)

func deeper(n int, p *int) int {
	if n == 0 {
		return *p
	}
	return deeper(n-1, p) + 1
}

func main() {
	var mu sync.Mutex
	var group sync.WaitGroup
	total := 0
	for g := 0; g < 4; g++ {
		group.Add(1)
		go func() {
			defer group.Done()
			for i := 0; i < 5; i++ {
				own := new(int)
				n := deeper(5000, own)
				mu.Lock()
				total += n
				mu.Unlock()
			}
		}()
	}
	group.Wait()
	fmt.Println(total)
}
