// clean

package main

import (
	"fmt"
	"sync"
)

func locked(l sync.Locker, f func()) {
	l.Lock()
	defer l.Unlock()
	f()
}

func main() {
	var mu sync.Mutex
	var rw sync.RWMutex
	var wg sync.WaitGroup
	n, unlock := 0, mu.Unlock
	wg.Add(3)
	for i := 0; i < 2; i++ {
		go func() {
			defer wg.Done()
			locked(&mu, func() { n++ })
			locked(rw.RLocker(), func() {})
		}()
	}
	mu.Lock()
	n++
	unlock()
	go wg.Done()
	wg.Wait()
	fmt.Println(n)
}
