// clean

package main

import (
	"fmt"
	"sync"
)

type entry struct{ n int }

func main() {
	var m sync.Map
	pool := sync.Pool{New: func() any { return new(entry) }}
	var wg sync.WaitGroup
	for i := 0; i < 4; i++ {
		wg.Add(1)
		go func(i int) {
			defer wg.Done()
			e := pool.Get().(*entry)
			e.n = i
			pool.Put(e)
			m.LoadOrStore(i%2, &entry{n: i})
		}(i)
	}
	for {
		n := 0
		m.Range(func(k, v any) bool { n += v.(*entry).n; return true })
		if v, ok := m.Load(1); ok && v.(*entry).n >= 0 {
			break
		}
	}
	wg.Wait()
	fmt.Println("done")
}
