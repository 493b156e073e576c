// hides: closed

// A flag is set before, and looked at behind, calls that lock.
package main

import (
	"sync"

	"example.com/predict/side"
)

type conn struct {
	mu          sync.Mutex
	sent, asked int
}

var closed bool

func (c *conn) send() {
	c.mu.Lock()
	c.sent++
	c.mu.Unlock()
}

func (c *conn) ask() {
	c.mu.Lock()
	c.asked++
	c.mu.Unlock()
}

func main() {
	c := &conn{}
	side.OneByOne(func() {
		closed = true
		c.ask()
	}, func() {
		c.send()
		if closed {
			println("late")
		}
	})
}
