// clean

package main

import (
	"fmt"
	"runtime"
	"time"
)

// What came before SetFinalizer comes before what the finalizer does.
type handle struct{ words [4]*int }

func main() {
	freed := make(chan string, 3)
	go func() {
		name := ""
		kept := new(handle)
		runtime.SetFinalizer(kept, func(*handle) { freed <- "kept" })
		runtime.SetFinalizer(kept, nil)
		h, any := new(handle), new(handle)
		name = "handle"
		runtime.SetFinalizer(h, func(*handle) { freed <- name })
		runtime.SetFinalizer(any, func(x interface{}) { freed <- name })
	}()
	for n := 0; n < 2; {
		runtime.GC()
		select {
		case name := <-freed:
			fmt.Println(name)
			n++
		case <-time.After(10 * time.Millisecond):
		}
	}
}
