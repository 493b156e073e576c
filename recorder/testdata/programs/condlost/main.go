// races: items

package main

import (
	"fmt"
	"sync"
)

func main() {
	var mu sync.Mutex
	full := sync.NewCond(&mu)
	items := 0
	done := make(chan bool)
	go func() {
		mu.Lock()
		for items == 0 {
			full.Wait()
		}
		mu.Unlock()
		done <- true
	}()
	mu.Lock()
	items = 1
	mu.Unlock()
	full.Broadcast()
	items = 2 // without the lock
	<-done
	fmt.Println(items)
}
