// clean

package main

import (
	"fmt"
	"sync"
)

// A Set is locked by its users, as OpenTelemetry's CheckpointSet.
type Set interface {
	sync.Locker
	RLock()
	RUnlock()
	Len() int
}

type set struct {
	sync.RWMutex
	m map[string]int
}

func (s *set) Len() int { return len(s.m) }

func show(s Set) { s.RLock(); defer s.RUnlock(); fmt.Println(s.Len() >= 0) }

func main() {
	s := &set{m: map[string]int{}}
	done := make(chan bool)
	go func() {
		s.Lock()
		s.m["a"] = 1
		s.Unlock()
		close(done)
	}()
	show(s)
	<-done
}
