// hides: user_name

// What a list points to isn't under the lock of the list.
package main

import (
	"sync"

	"example.com/predict/side"
)

type user struct{ name string }

type sessions struct {
	mu    sync.Mutex
	users [2]*user
}

func (s *sessions) add(i int, u *user) {
	s.mu.Lock()
	defer s.mu.Unlock()
	s.users[i] = u
}

func main() {
	s, u := &sessions{}, &user{}
	side.OneByOne(func() {
		u.name = "a"
		s.add(0, u)
	}, func() {
		s.add(1, u)
		u.name += "b"
	})
}
