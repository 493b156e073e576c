// clean

package main

import (
	"fmt"
	"runtime"
	"sync"
)

// handing hands what is printed to a goroutine, and returns once that has read it.
type handing struct {
	lines chan []byte
	read  chan bool
}

func (h handing) Write(p []byte) (int, error) {
	h.lines <- p
	<-h.read
	return len(p), nil
}

// Package fmt passes its memory on from one goroutine that prints to another.
func main() {
	runtime.GOMAXPROCS(1)
	var all sync.WaitGroup
	for i := 0; i < 3; i++ {
		h, sum := handing{make(chan []byte), make(chan bool)}, 0
		go func() {
			for line := range h.lines {
				for _, c := range line {
					sum += int(c)
				}
				h.read <- true
			}
		}()
		all.Add(1)
		go func() {
			defer all.Done()
			for n := 0; n < 20; n++ {
				fmt.Fprintf(h, "%d lines\n", n)
				runtime.Gosched()
			}
			close(h.lines)
		}()
	}
	all.Wait()
}
