// races: counter_total, counter_found

package main

import "sync"

// A variable is read after the calls of its statement, and a map where it stands.

type counter struct {
	wg    sync.WaitGroup
	mu    sync.Mutex
	total int
	found map[string]int
}

func (c *counter) start(n int) int {
	c.wg.Add(1)
	go func() {
		defer c.wg.Done()
		c.mu.Lock()
		defer c.mu.Unlock()
		c.total += n
		c.found["a"] = n
	}()
	return n
}

func (c *counter) finish() error {
	c.wg.Wait()
	return nil
}

func main() {
	c := counter{found: map[string]int{}}
	_ = c.total + c.start(1)
	mapped := func() (int, error) { return c.found["a"], c.finish() }
	_, _ = mapped()
}
