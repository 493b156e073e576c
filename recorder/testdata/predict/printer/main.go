// hides: words_elem

// The lock of a printer orders what two do with a slice.
package main

import (
	"fmt"
	"sync"

	"example.com/predict/side"
)

type printer struct {
	mu    sync.Mutex
	lines [2]string
}

func (p *printer) print(i int, words []string) {
	p.mu.Lock()
	defer p.mu.Unlock()
	p.lines[i] = fmt.Sprint(len(words))
}

func main() {
	words := []string{"a", "b"}
	p := &printer{}
	side.OneByOne(func() {
		words[0] = "c"
		p.print(0, nil)
	}, func() {
		p.print(1, nil)
		words[0] = "d"
	})
}
