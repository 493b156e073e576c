// clean

package main

import (
	"math"
	"sort"
)

var (
	numbers = []int{1, 2, 3, 7, 5, 6, 8}
	floats  = []float64{math.NaN(), 1, 2}
	names   = []string{"a", "b", "c"}
)

// both does a in another goroutine, and b meanwhile.
func both(a, b func()) {
	done := make(chan bool)
	go func() {
		a()
		done <- true
	}()
	b()
	<-done
}

// What is in its place isn't written where it is sorted, and others may read it.
func main() {
	both(func() { sort.Ints(numbers) }, func() { println(numbers[0], numbers[2], numbers[6]) })
	both(func() { sort.Ints(numbers) }, func() { println(numbers[3]) })
	both(func() { sort.Float64s(floats) }, func() { println(floats[1]) })
	both(func() { sort.Strings(names) }, func() { println(names[1]) })
	both(func() { sort.IntSlice(numbers).Sort() }, func() { println(numbers[1]) })
}
