// races: buf, logger_log

package main

import (
	"bytes"
	"fmt"
	"strings"
	"sync"
)

type logger struct{ log strings.Builder }

func main() {
	var buf bytes.Buffer
	var l logger
	var wg sync.WaitGroup
	for i := 0; i < 2; i++ {
		wg.Add(1)
		go func(i int) {
			defer wg.Done()
			buf.WriteString("a")
			fmt.Fprintf(&l.log, "%d", i)
		}(i)
	}
	wg.Wait()
	fmt.Println(buf.Len() > 0, l.log.Len() > 0)
}
