// clean

package main

import (
	"fmt"
	"runtime"
	"sync/atomic"
)

var (
	ready atomic.Bool
	count int32
	data  string
)

func main() {
	go func() {
		data = "written before the flag"
		atomic.AddInt32(&count, 2)
		ready.Store(true)
	}()
	for !ready.Load() {
		runtime.Gosched()
	}
	fmt.Println(data, atomic.LoadInt32(&count))
}
