// clean

package main

import (
	"bytes"
	"fmt"
	"io"
	"sync"
)

type safe struct {
	mu sync.Mutex
	w  io.Writer
}

func (s *safe) Write(p []byte) (int, error) {
	s.mu.Lock()
	defer s.mu.Unlock()
	return s.w.Write(p)
}

func main() {
	var buf bytes.Buffer
	s := &safe{w: &buf}
	turn := make(chan string, 1)
	var wg sync.WaitGroup
	for i := 0; i < 3; i++ {
		wg.Add(1)
		go func(i int) {
			defer wg.Done()
			fmt.Fprintf(s, "%d\n", i)
		}(i)
	}
	wg.Wait()
	go func() {
		buf.WriteString("last\n")
		turn <- "done\n"
	}()
	buf.WriteString(<-turn) // the write comes behind the receive
	fmt.Println(buf.Len())
}
