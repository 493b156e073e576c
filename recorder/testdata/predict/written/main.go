// clean

// Who fills a buffer knows that all have written to it.
package main

import (
	"bytes"
	"sync"

	"example.com/predict/side"
)

func main() {
	var mu sync.Mutex
	var out bytes.Buffer
	var values [3]int
	side.Each(3, func(i int) {
		values[i] = i
		mu.Lock()
		out.WriteByte('x')
		full := out.Len() == 3
		mu.Unlock()
		if full {
			for i := range values {
				values[i]++
			}
		}
	})
}
