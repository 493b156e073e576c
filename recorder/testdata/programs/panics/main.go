// races: n
// status: 2

package main

import "time"

func main() {
	n := 0
	go func() { n++ }()
	n++
	time.Sleep(300 * time.Millisecond)
	var m map[string]int
	m["a"] = 1
}
