// clean

package main

import (
	"fmt"
	"sync"
)

// Who ranges over a map finds values that are replaced meanwhile.
type box struct{ n int }

func main() {
	var m sync.Map
	m.Store("a", &box{1})
	var wg sync.WaitGroup
	for i := 0; i < 3; i++ {
		wg.Add(2)
		go func(i int) {
			defer wg.Done()
			for j := 0; j < 300; j++ {
				b := new(box)
				b.n = i + j
				m.Store("a", b)
			}
		}(i)
		go func() {
			defer wg.Done()
			sum := 0
			for j := 0; j < 300; j++ {
				m.Range(func(_, v any) bool {
					sum += v.(*box).n
					return true
				})
			}
		}()
	}
	wg.Wait()
	n := 0
	m.Range(func(k, _ any) bool {
		m.Delete(k)
		n++
		return true
	})
	_, found := m.Load("a")
	fmt.Println(n, found)
}
