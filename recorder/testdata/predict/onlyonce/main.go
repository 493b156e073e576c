// clean

// A once has made the value for both.
package main

import (
	"sync"

	"example.com/predict/side"
)

func main() {
	var once sync.Once
	var mu sync.Mutex
	value, uses := 0, [2]int{}
	side.Each(2, func(i int) {
		once.Do(func() { value = 1 })
		mu.Lock()
		uses[i] = value
		mu.Unlock()
	})
}
