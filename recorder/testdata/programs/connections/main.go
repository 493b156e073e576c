// clean

package main

import (
	"encoding/gob"
	"encoding/xml"
	"fmt"
	"net"
)

type message struct{ N int }

type counted struct{ *net.TCPConn }

func main() {
	listener, err := net.ListenTCP("tcp", &net.TCPAddr{IP: net.IPv4(127, 0, 0, 1)})
	if err != nil {
		panic(err)
	}
	steps := 0
	go func() {
		c, err := listener.AcceptTCP()
		if err != nil {
			panic(err)
		}
		b := make([]byte, 1)
		c.Read(b)
		steps++
		c.Write(b)
		c.Read(b)
		steps++
		(&counted{c}).Write(b)
		var m message
		gob.NewDecoder(c).Decode(&m)
		steps++
		m.N++
		gob.NewEncoder(c).Encode(m)
		xml.NewDecoder(c).Decode(&m)
		steps++
		m.N++
		xml.NewEncoder(c).Encode(m)
	}()
	c, err := net.DialTCP("tcp", nil, listener.Addr().(*net.TCPAddr))
	if err != nil {
		panic(err)
	}
	b := []byte("x")
	for i := 0; i < 2; i++ {
		c.Write(b)
		c.Read(b)
		steps++
	}
	m := message{}
	gob.NewEncoder(c).Encode(m)
	gob.NewDecoder(c).Decode(&m)
	steps++
	xml.NewEncoder(c).Encode(m)
	xml.NewDecoder(c).Decode(&m)
	steps++
	fmt.Println(m, steps)
}
