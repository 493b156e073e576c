// races: bare_total

package main

import (
	"fmt"
	"log"
	"sync"
)

// A collector relies on the logger, which calls Write for one goroutine at a time.
type collector struct {
	lines []string
	n     int
}

func (c *collector) Write(line []byte) (int, error) {
	c.lines = append(c.lines, string(line))
	c.n++
	return len(line), nil
}

// count is a Writer of values.
type count struct{ n *int }

func (c count) Write(line []byte) (int, error) {
	*c.n += len(line)
	return len(line), nil
}

// bare is used without a lock.
type bare struct{ total int }

func (b *bare) Write(line []byte) (int, error) {
	b.total += len(line)
	return len(line), nil
}

func main() {
	c, n := &collector{}, 0
	logger, other := log.New(c, "", 0), log.New(count{&n}, "", 0)
	var all sync.WaitGroup
	for i := 0; i < 4; i++ {
		all.Add(1)
		go func(i int) {
			defer all.Done()
			for j := 0; j < 3; j++ {
				logger.Printf("%d says %d", i, j)
				other.Print(j)
			}
		}(i)
	}
	all.Wait()
	fmt.Println(len(c.lines), c.n, n)
	b := &bare{}
	for i := 0; i < 2; i++ {
		all.Add(1)
		go func() {
			defer all.Done()
			fmt.Fprint(b, "hello")
		}()
	}
	all.Wait()
}
