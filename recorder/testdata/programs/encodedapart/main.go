// clean

package main

import (
	"encoding/json"
	"fmt"
	"sync"
)

// counter encodes itself under its lock.
type counter struct {
	mu sync.Mutex
	N  int
}

func (c *counter) MarshalJSON() ([]byte, error) {
	c.mu.Lock()
	defer c.mu.Unlock()
	return json.Marshal(c.N)
}

func (c *counter) add() {
	c.mu.Lock()
	c.N++
	c.mu.Unlock()
}

// label encodes itself as text.
type label struct {
	mu   sync.Mutex
	Text string
}

func (l *label) MarshalText() ([]byte, error) {
	l.mu.Lock()
	defer l.mu.Unlock()
	return []byte(l.Text), nil
}

// page has fields that aren't encoded, under its lock.
type page struct {
	Title  string
	Visits counter
	Labels []*label
	mu     sync.Mutex
	hits   int
	Cached int `json:"-"`
}

func (p *page) hit() {
	p.mu.Lock()
	p.hits++
	p.Cached++
	p.mu.Unlock()
	p.Visits.add()
	l := p.Labels[0]
	l.mu.Lock()
	l.Text += "."
	l.mu.Unlock()
}

// What a coder doesn't look at, or methods of the program's look at, it doesn't read. Nor does %T.
func main() {
	p := &page{Title: "home", Labels: []*label{{Text: "a"}}}
	c := &counter{}
	done := make(chan bool)
	go func() {
		for i := 0; i < 50; i++ {
			p.hit()
			c.add()
		}
		done <- true
	}()
	for i := 0; i < 50; i++ {
		if fmt.Sprintf("%d%% %-9T at %p", i, p, c) == "" {
			break
		}
		if _, err := json.Marshal(p); err != nil {
			fmt.Println(err)
		}
		if _, err := json.Marshal(c); err != nil {
			fmt.Println(err)
		}
		if _, err := json.Marshal(map[string]*counter{"c": c}); err != nil {
			fmt.Println(err)
		}
	}
	<-done
}
