// Package side starts the goroutines of the programs beside it, and waits for them.
package side

import (
	"sync"
	"time"
)

// OneByOne starts a goroutine for each function, a moment after the one before.
func OneByOne(functions ...func()) {
	done := make(chan bool)
	for i, f := range functions {
		i, f := i, f
		go func() {
			time.Sleep(time.Duration(i) * time.Millisecond)
			f()
			done <- true
		}()
	}
	for range functions {
		<-done
	}
}

// Each starts n goroutines, and hands each its number.
func Each(n int, f func(i int)) {
	var wg sync.WaitGroup
	wg.Add(n)
	for i := 0; i < n; i++ {
		i := i
		go func() {
			defer wg.Done()
			f(i)
		}()
	}
	wg.Wait()
}
