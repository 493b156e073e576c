// races: b_elem

package main

import (
	"fmt"
	"sync"
)

func main() {
	for _, k := range []int{1, 8, 100, 515, 1021} {
		b := make([]byte, 1200)
		var wg sync.WaitGroup
		wg.Add(2)
		go func() {
			defer wg.Done()
			for i := 0; i <= k; i++ { // one byte too far
				b[i] = byte(i)
			}
		}()
		go func() {
			defer wg.Done()
			for i := k; i < len(b); i++ {
				if b[i] > byte(k) {
					fmt.Println(i)
				}
			}
		}()
		wg.Wait()
	}
}
