// Four goroutines take the rows of a grid of 150 × 150 from a channel and smooth them, 40
// times.
package main

import (
	"fmt"
	"sync"
)

const n = 150

func smooth(to, from [][]float64, i int) {
	for j := 1; j < n-1; j++ {
		to[i][j] = (from[i-1][j] + from[i+1][j] + from[i][j-1] + from[i][j+1]) / 4
	}
}

func grid() [][]float64 {
	m := make([][]float64, n)
	for i := range m {
		m[i] = make([]float64, n)
		m[i][0] = float64(i)
	}
	return m
}

func main() {
	from, to := grid(), grid()
	for round := 0; round < 40; round++ {
		rows := make(chan int)
		var wg sync.WaitGroup
		for g := 0; g < 4; g++ {
			wg.Add(1)
			go func() {
				defer wg.Done()
				for i := range rows {
					smooth(to, from, i)
				}
			}()
		}
		for i := 1; i < n-1; i++ {
			rows <- i
		}
		close(rows)
		wg.Wait()
		from, to = to, from
	}
	fmt.Printf("%.6f\n", from[n/2][1])
}
