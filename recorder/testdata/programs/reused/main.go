// clean

package main

import (
	"encoding/json"
	"fmt"
	"runtime"
	"sync"
)

type future struct {
	done chan struct{}
	val  []byte
	err  error
}

func start(f func() ([]byte, error)) *future {
	p := &future{done: make(chan struct{})}
	go func() {
		defer close(p.done)
		p.val, p.err = f()
	}()
	return p
}

func use(i int) int {
	f := start(func() ([]byte, error) { return json.Marshal(map[string]any{"name": i, "balance": i}) })
	x := make([]byte, 48)
	x[i%48] = 1
	<-f.done
	return len(f.val) + int(x[3])
}

// Memory is used again: what was done with it before is about other variables.
func main() {
	var wg sync.WaitGroup
	for g := 0; g < 8; g++ {
		wg.Add(1)
		go func() {
			defer wg.Done()
			n := 0
			for i := 0; i < 300; i++ {
				n += use(i)
				if i%100 == 0 {
					runtime.GC()
				}
			}
			_ = n
		}()
	}
	wg.Wait()
	fmt.Println("ok")
}
