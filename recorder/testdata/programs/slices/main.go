// races: cells_elem

package main

import (
	"fmt"
	"sync"
)

func main() {
	cells := make([]int, 4)
	var wg sync.WaitGroup
	for i := 0; i < 2; i++ {
		wg.Add(1)
		go func(i int) {
			defer wg.Done()
			for k := 0; k < 3; k++ {
				cells[i+k%2]++ // one cell too far
			}
		}(i)
	}
	wg.Wait()
	fmt.Println(len(cells))
}
