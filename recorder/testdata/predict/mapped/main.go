// clean

// A map that reflect changes and counts.
package main

import (
	"reflect"
	"sync"

	"example.com/predict/side"
)

func main() {
	var mu sync.Mutex
	m := map[string]int{}
	values := [2]int{}
	side.Each(2, func(i int) {
		values[i] = 1
		mu.Lock()
		reflect.ValueOf(m).SetMapIndex(reflect.ValueOf([]string{"a", "b"}[i]), reflect.ValueOf(i))
		n := reflect.ValueOf(m).Len()
		mu.Unlock()
		if n == 2 {
			values[0]++
			values[1]++
		}
	})
}
