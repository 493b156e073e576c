// races: after

package main

import (
	"context"
	"fmt"
	"time"
)

// A stop is a context of a type of the program's own.
type stop struct{ done chan struct{} }

func (s stop) Deadline() (time.Time, bool) { return time.Time{}, false }
func (s stop) Done() <-chan struct{}       { return s.done }
func (s stop) Err() error                  { return context.Canceled }
func (s stop) Value(any) any               { return nil }

func main() {
	s, end, after := stop{make(chan struct{})}, make(chan struct{}), 0
	ctx, cancel := context.WithCancel(s)
	defer cancel()
	go func() {
		close(s.done)
		after = 1 // no longer before what ctx's end is before
		close(end)
	}()
	<-ctx.Done()
	fmt.Println(ctx.Err(), after >= 0)
	<-end
}
