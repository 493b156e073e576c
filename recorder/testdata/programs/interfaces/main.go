// clean

package main

import (
	"sync"
	"sync/atomic"
)

type flag interface {
	Load() bool
	Store(bool)
}

type locks interface {
	sync.Locker
	RLock()
	RUnlock()
}

func add(n *int, group interface{ Done() }) {
	defer group.Done()
	*n++
}

func main() {
	var group sync.WaitGroup
	n := 0
	group.Add(1)
	go add(&n, &group)
	group.Wait()
	n++

	var ready flag = &atomic.Bool{}
	go func() {
		n++
		ready.Store(true)
	}()
	for !ready.Load() {
	}
	n++

	var mu locks = &sync.RWMutex{}
	done := make(chan bool)
	go func() {
		mu.RLock()
		if n > 100 {
			panic(n)
		}
		mu.RUnlock()
		done <- true
	}()
	mu.Lock()
	n++
	mu.Unlock()
	<-done
}
