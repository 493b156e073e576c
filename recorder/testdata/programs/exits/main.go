// races: n
// status: 3

package main

import (
	"os"
	"time"
)

func main() {
	n := 0
	go func() { n++ }()
	time.Sleep(300 * time.Millisecond)
	n++
	os.Exit(3)
}
