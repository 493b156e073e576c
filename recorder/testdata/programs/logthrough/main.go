// clean

package main

import (
	"bufio"
	"fmt"
	"io"
	"log"
	"sync"
)

// counter needs no lock of its own: log has one round each line, whatever stands between the two.
type counter struct{ n int }

func (c *counter) Write(b []byte) (int, error) {
	c.n += len(b)
	return len(b), nil
}

func main() {
	direct, buffered := &counter{}, &counter{}
	l := log.New(io.MultiWriter(direct, bufio.NewWriterSize(buffered, 16)), "", 0)
	var wg sync.WaitGroup
	for i := 0; i < 4; i++ {
		wg.Add(1)
		go func() {
			defer wg.Done()
			for j := 0; j < 10; j++ {
				l.Printf("line %d", j)
			}
		}()
	}
	wg.Wait()
	fmt.Println(direct.n, buffered.n)
}
