// races: tagged_Title|t, item_N|i, plain_N|n

package main

import (
	"encoding/gob"
	"encoding/json"
	"encoding/xml"
	"fmt"
	"io"
	"sync"
	"time"
)

// counter prints and encodes itself under its lock.
type counter struct {
	mu sync.Mutex
	N  int
}

func (c *counter) MarshalXML(e *xml.Encoder, start xml.StartElement) error {
	c.mu.Lock()
	defer c.mu.Unlock()
	return e.EncodeElement(c.N+0, start)
}

func (c *counter) GobEncode() ([]byte, error) {
	c.mu.Lock()
	defer c.mu.Unlock()
	return []byte{byte(c.N)}, nil
}

func (c *counter) GoString() string {
	c.mu.Lock()
	defer c.mu.Unlock()
	return fmt.Sprint(c.N)
}

func (c *counter) add() {
	c.mu.Lock()
	c.N++
	c.mu.Unlock()
}

// mark encodes itself as an attribute.
type mark struct{ counter }

func (m *mark) MarshalXMLAttr(name xml.Name) (xml.Attr, error) {
	m.mu.Lock()
	defer m.mu.Unlock()
	return xml.Attr{Name: name, Value: fmt.Sprint(m.N)}, nil
}

type page struct {
	Visits counter
	Mark   *mark `xml:"mark,attr"`
}

// tagged has fields that one coder leaves out, and another doesn't.
type tagged struct {
	Title string `xml:"-"`
	Other string `json:"-"`
}

// item prints itself, which a decoder doesn't care for.
type item struct{ N int }

func (i *item) String() string { return "an item" }

// plain has a method for another coder.
type plain struct{ N int }

func (p *plain) GobEncode() ([]byte, error) { return nil, nil }

func use(p *page, c *counter) {
	out := gob.NewEncoder(io.Discard)
	for i := 0; i < 50; i++ {
		if _, err := xml.Marshal(p); err != nil {
			fmt.Println(err)
		}
		if err := xml.NewEncoder(io.Discard).Encode(c); err != nil {
			fmt.Println(err)
		}
		if err := out.Encode(c); err != nil {
			fmt.Println(err)
		}
		if fmt.Sprintf("%#v", c) == "" {
			return
		}
	}
}

func main() {
	p, c := &page{Mark: &mark{}}, &counter{}
	done := make(chan bool)
	go func() {
		for i := 0; i < 50; i++ {
			p.Visits.add()
			p.Mark.add()
			c.add()
		}
		done <- true
	}()
	use(p, c)
	<-done
	race()
}

// race has what a coder reads or writes, though there are methods for others.
func race() {
	t, i, n := &tagged{}, &item{}, &plain{}
	done := make(chan error)
	go func() {
		time.Sleep(10 * time.Millisecond)
		t.Title, t.Other, n.N = "a", "b", 1
		done <- json.Unmarshal([]byte(`{"N": 2}`), i)
	}()
	_, err := json.Marshal(t)
	_, err2 := json.Marshal(n)
	fmt.Println(i.N, err, err2)
	fmt.Println(<-done)
}
