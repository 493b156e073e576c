// hides: Server_state

// A field without a lock beside calls that lock.
package main

import (
	"sync"

	"example.com/predict/side"
)

type Server struct {
	state string
	mu    sync.Mutex
	log   [2]string
}

func (s *Server) note(i int, line string) {
	s.mu.Lock()
	defer s.mu.Unlock()
	s.log[i] = line
}

func main() {
	s := &Server{}
	side.OneByOne(func() {
		s.state = "up"
		s.note(0, "is up")
	}, func() {
		s.note(1, "asked")
		println(s.state)
	})
}
