// races: n

package main

import (
	"fmt"
	"runtime"
	"sync"
)

func main() {
	var mu sync.Mutex
	var rw sync.RWMutex
	n, m := 0, 0
	done := make(chan bool)
	mu.Lock()
	go func() {
		if !mu.TryLock() {
			n++ // without the lock
		}
		done <- true
	}()
	n++
	<-done
	mu.Unlock()

	go func() {
		for !rw.TryRLock() {
			runtime.Gosched()
		}
		fmt.Println(m)
		rw.RUnlock()
		done <- true
	}()
	for !rw.TryLock() {
		runtime.Gosched()
	}
	m++
	rw.Unlock()
	<-done
}
