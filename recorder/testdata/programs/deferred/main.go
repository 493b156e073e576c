// clean

package main

import (
	"bufio"
	"encoding/json"
	"fmt"
	"io"
	"net"
)

type wrapped struct{ net.Conn }

type closing struct{ c io.WriteCloser }

func main() {
	steps := 0
	try := func(part func(c net.Conn)) {
		a, b := net.Pipe()
		go part(a)
		io.ReadAll(b)
		steps++
	}
	try(func(c net.Conn) {
		defer c.Close()
		steps++
	})
	try(func(c net.Conn) {
		w := wrapped{c}
		defer w.Close()
		steps++
	})
	try(func(c net.Conn) {
		w := closing{c}
		defer w.c.Close()
		defer w.c.Write([]byte("bye"))
		steps++
	})
	try(func(c net.Conn) {
		defer c.Close()
		w := bufio.NewWriter(c)
		defer w.Flush()
		w.WriteString("bye")
		steps++
	})
	try(func(c net.Conn) {
		defer c.Close()
		defer fmt.Fprintln(c, "bye", steps > 0)
		steps++
	})
	try(func(c net.Conn) {
		defer c.Close()
		e := json.NewEncoder(c)
		defer e.Encode(1)
		steps++
	})
	r, w := io.Pipe()
	go func() {
		defer w.Close()
		w.Write([]byte("a"))
		steps++
	}()
	io.ReadAll(r)
	steps++
	l, err := net.ListenTCP("tcp", &net.TCPAddr{IP: net.IPv4(127, 0, 0, 1)})
	if err != nil {
		panic(err)
	}
	go func() {
		defer l.Close()
		steps++
	}()
	l.Accept()
	steps++
	if steps != 16 {
		panic(steps)
	}
}
