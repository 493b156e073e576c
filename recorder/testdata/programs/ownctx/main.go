// clean

package main

import (
	"context"
	"fmt"
	"time"
)

// A stop is a context of a type of the program's own.
type stop struct {
	done chan struct{}
	err  error
}

func newStop() *stop { return &stop{done: make(chan struct{})} }

func (s *stop) Deadline() (time.Time, bool) { return time.Time{}, false }
func (s *stop) Done() <-chan struct{}       { return s.done }
func (s *stop) Err() error                  { return s.err }
func (s *stop) Value(any) any               { return nil }

func (s *stop) end() {
	s.err = context.Canceled
	close(s.done)
}

func main() {
	s, other := newStop(), newStop()
	ctx, cancel := context.WithCancel(s)
	defer cancel()
	below, cancelBelow := context.WithTimeout(context.WithValue(ctx, s, 1), time.Hour)
	defer cancelBelow()
	result := 0
	go func() {
		result = 1
		s.end()
	}()
	<-below.Done() // which package context closes once s is done
	fmt.Println(result, below.Err(), ctx)

	go func() {
		result = 2
		other.end()
	}()
	<-other.Done()
	late, cancelLate := context.WithCancel(other) // done when it is made
	defer cancelLate()
	<-late.Done()
	fmt.Println(result, late.Err())
}
