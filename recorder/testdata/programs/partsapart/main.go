// clean

package main

import (
	"fmt"
	"strings"
	"sync"
)

var text strings.Reader

// ReadAt may be called beside Read: what that changes it doesn't read.
func main() {
	text.Reset("one two three")
	var word, rest [3]byte
	var both sync.WaitGroup
	both.Add(2)
	go func() {
		defer both.Done()
		text.ReadAt(word[:], 4)
	}()
	go func() {
		defer both.Done()
		text.Read(rest[:])
	}()
	both.Wait()
	fmt.Println(string(word[:]), string(rest[:]))
}
