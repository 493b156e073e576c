// races: Counter_n

package main

import (
	"fmt"
	"sync"
)

type Counter struct {
	mu sync.Mutex
	n  int
}

func (c *Counter) Inc() {
	c.mu.Lock()
	c.n++
	c.mu.Unlock()
}

func (c *Counter) Value() int {
	return c.n // forgot the lock
}

func main() {
	var c Counter
	var wg sync.WaitGroup
	for i := 0; i < 3; i++ {
		wg.Add(1)
		go func() {
			defer wg.Done()
			for k := 0; k < 3; k++ {
				c.Inc()
				if c.Value() > 5 {
					return
				}
			}
		}()
	}
	wg.Wait()
	fmt.Println(c.Value() > 0)
}
