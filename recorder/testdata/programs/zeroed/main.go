// clean

package main

import "sync"

// what is guarded is set back to its zero value, with its locks and its once
type guarded struct {
	mu   sync.Mutex
	rw   sync.RWMutex
	once sync.Once
	n    int
}

func main() {
	var g guarded
	done := make(chan bool)
	for i := 0; i < 3; i++ {
		g.once.Do(func() { g.n++ })
		go func() {
			g.once.Do(func() { panic("once again") })
			g.mu.Lock()
			g.n++
			g.mu.Unlock()
			done <- true
		}()
		g.mu.Lock()
		g.n++
		g.mu.Unlock()
		<-done
		g.mu.Lock()
		g.rw.RLock()
		g = guarded{n: g.n}
		g.mu.Lock()
		g.rw.Lock()
		g.n++
		g = guarded{n: g.n}
	}
	if g.n != 12 {
		panic(g.n)
	}
}
