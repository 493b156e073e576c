// races: options_Port|o, first, second, word, failure, read

package main

import (
	"errors"
	"fmt"
	"io/fs"
	"os"
	"strings"
)

type options struct {
	Port int
	Host string
}

var (
	o             = options{Host: "h"}
	first, second int
	word          string
	failure       *fs.PathError
	read          int
)

// both does a in another goroutine, and b meanwhile.
func both(a, b func()) {
	done := make(chan bool)
	go func() {
		a()
		done <- true
	}()
	b()
	<-done
}

// what functions of the standard library write behind pointers
func main() {
	_, err := os.Open("/none/there")
	both(func() { fmt.Sscan("8080", &o.Port) }, func() { o.Port = 1 })
	both(func() { fmt.Sscanf("1-2", "%d-%d", &first, &second) }, func() { first, second = 3, 4 })
	both(func() { fmt.Sscanln("a", &word) }, func() { word = "b" })
	both(func() { errors.As(err, &failure) }, func() { failure = nil })
	both(func() { fmt.Fscan(strings.NewReader("3"), &read) }, func() { read = 4 })
}
