// clean

package main

import (
	"fmt"
	"sync"
)

type Cache struct {
	sync.RWMutex
	m    map[string]int
	hits int
}

func (c *Cache) Get(k string) (int, bool) {
	c.RLock()
	defer c.RUnlock()
	v, ok := c.m[k]
	return v, ok
}

func (c *Cache) Set(k string, v int) {
	c.Lock()
	c.m[k] = v
	c.hits++
	c.Unlock()
}

func main() {
	c := &Cache{m: map[string]int{}}
	var wg sync.WaitGroup
	for i := 0; i < 4; i++ {
		wg.Add(1)
		go func(i int) {
			defer wg.Done()
			for k := 0; k < 5; k++ {
				key := fmt.Sprint("k", k)
				if _, ok := c.Get(key); !ok {
					c.Set(key, i)
				}
			}
		}(i)
	}
	wg.Wait()
	fmt.Println(len(c.m), c.hits >= 5)
}
