// races: n

package main

import (
	"fmt"
	"sync"
)

type counter struct {
	mu sync.Mutex
	n  *int
}

func (c counter) add() { // a copy of the mutex
	c.mu.Lock()
	*c.n++
	c.mu.Unlock()
}

func main() {
	n := 0
	c := counter{n: &n}
	var wg sync.WaitGroup
	wg.Add(2)
	for i := 0; i < 2; i++ {
		go func() {
			defer wg.Done()
			c.add()
		}()
	}
	wg.Wait()
	fmt.Println(n > 0)
}
