// races: wrong

package main

import (
	"fmt"
	"sync"
)

func main() {
	var wg sync.WaitGroup
	right, wrong := 0, 0
	var mu sync.Mutex
	for round := 0; round < 300; round++ { // 3,000 goroutines, whose names are lent on
		for i := 0; i < 10; i++ {
			wg.Add(1)
			go func(last bool) {
				defer wg.Done()
				mu.Lock()
				right++
				mu.Unlock()
				if last {
					wrong++
				}
			}(round == 299)
		}
		wg.Wait()
	}
	fmt.Println(right, wrong > 0)
}
