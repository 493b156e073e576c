// Four goroutines look words up in one map, and count in maps of their own.
package main

import (
	"fmt"
	"sync"
)

func main() {
	words := map[int]string{}
	for i := 0; i < 1000; i++ {
		words[i] = fmt.Sprint(i % 10)
	}
	var wg sync.WaitGroup
	var mu sync.Mutex
	total := 0
	for g := 0; g < 4; g++ {
		wg.Add(1)
		go func(g int) {
			defer wg.Done()
			counts := map[string]int{}
			for i := 0; i < 250000; i++ {
				counts[words[i%1000]]++
			}
			mu.Lock()
			total += len(counts)
			mu.Unlock()
		}(g)
	}
	wg.Wait()
	fmt.Println(total)
}
