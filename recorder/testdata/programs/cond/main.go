// clean

package main

import (
	"fmt"
	"sync"
)

type queue struct {
	mu    sync.Mutex
	full  *sync.Cond
	items []int
}

func main() {
	q := &queue{}
	q.full = sync.NewCond(&q.mu)
	done := make(chan int)
	for i := 0; i < 2; i++ {
		go func() {
			q.mu.Lock()
			for len(q.items) == 0 {
				q.full.Wait()
			}
			v := q.items[0]
			q.items = q.items[1:]
			q.mu.Unlock()
			done <- v
		}()
	}
	for i := 1; i <= 2; i++ {
		q.mu.Lock()
		q.items = append(q.items, i)
		q.mu.Unlock()
		q.full.Signal()
	}
	fmt.Println(<-done + <-done)
}
