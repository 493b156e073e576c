// clean

package main

import (
	"flag"
	"fmt"
	"sync"
	"testing"
)

func main() {
	testing.Init()
	if err := flag.Set("test.benchtime", "50x"); err != nil {
		panic(err)
	}
	n := 1
	result := testing.Benchmark(func(b *testing.B) {
		for i := 0; i < b.N; i++ {
			n++
		}
	})
	fmt.Println(n, result.N)
	var lock sync.Mutex
	total, rounds := 0, 0
	testing.Benchmark(func(b *testing.B) {
		rounds++
		b.RunParallel(func(next *testing.PB) {
			done := 0
			for next.Next() {
				done++
			}
			lock.Lock()
			defer lock.Unlock()
			total += done
		})
		total++
	})
	fmt.Println(total-rounds, rounds)
}
