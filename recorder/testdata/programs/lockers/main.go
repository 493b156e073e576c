// races: l

package main

import (
	"fmt"
	"sync"
)

// A Locker is a variable as others are.
var l sync.Locker

func main() {
	var mu sync.RWMutex
	l = &mu
	done := make(chan bool)
	go func() {
		l = mu.RLocker()
		done <- true
	}()
	locker := l // once: what locks has to unlock
	locker.Lock()
	locker.Unlock()
	fmt.Println(<-done)
}
