// clean

package main

import (
	"errors"
	"fmt"
	"io/fs"
)

type options struct {
	Port int
	Host string
}

var (
	o             options
	first, second int
	failure       *fs.PathError
)

// both does a in another goroutine, and b meanwhile.
func both(a, b func()) {
	done := make(chan bool)
	go func() {
		a()
		done <- true
	}()
	b()
	<-done
}

// what functions of the standard library leave as it is
func main() {
	both(func() { fmt.Sscan("8080", &o.Port) }, func() { o.Host = "h" })
	both(func() { fmt.Sscanf("1", "%d-%d", &first, &second) }, func() { second = 4 })
	both(func() { errors.As(errors.New("other"), &failure) }, func() { failure = nil })
}
