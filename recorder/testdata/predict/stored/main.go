// clean

// A sync.Map says that the other one is there.
package main

import (
	"sync"

	"example.com/predict/side"
)

func main() {
	var m sync.Map
	values := [2]int{}
	side.Each(2, func(i int) {
		values[i] = 1
		m.Store(i, true)
		if _, there := m.Load(1 - i); there {
			println(values[1-i])
		}
	})
}
