// clean

// The last one that comes has all.
package main

import (
	"container/list"
	"sync"

	"example.com/predict/side"
)

func main() {
	var mu sync.Mutex
	l := list.New()
	values := [2]int{}
	side.Each(2, func(i int) {
		values[i] = 1
		mu.Lock()
		l.PushBack(i)
		n := l.Len()
		mu.Unlock()
		if n == 2 {
			values[0]++
			values[1]++
		}
	})
}
