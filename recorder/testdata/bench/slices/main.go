// Four goroutines multiply matrices of 200 rows and columns.
package main

import (
	"fmt"
	"sync"
)

const n = 200

func matrix(f func(i, j int) float64) [][]float64 {
	m := make([][]float64, n)
	for i := range m {
		m[i] = make([]float64, n)
		for j := range m[i] {
			m[i][j] = f(i, j)
		}
	}
	return m
}

func main() {
	a := matrix(func(i, j int) float64 { return float64(i + j) })
	b := matrix(func(i, j int) float64 { return float64(i - j) })
	c := matrix(func(i, j int) float64 { return 0 })
	var wg sync.WaitGroup
	for g := 0; g < 4; g++ {
		wg.Add(1)
		go func(g int) {
			defer wg.Done()
			for i := g; i < n; i += 4 {
				for j := 0; j < n; j++ {
					for k := 0; k < n; k++ {
						c[i][j] += a[i][k] * b[k][j]
					}
				}
			}
		}(g)
	}
	wg.Wait()
	fmt.Println(c[3][4])
}
