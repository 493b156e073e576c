// clean

package main

import (
	"fmt"
	"net"
	"net/textproto"
)

// named is a struct, and no pointer to one, that embeds a connection.
type named struct {
	net.Conn
	name string
}

func main() {
	l, err := net.Listen("tcp", "127.0.0.1:0")
	if err != nil {
		panic(err)
	}
	x, y := 0, 0
	go func() {
		c, err := l.Accept()
		if err != nil {
			panic(err)
		}
		own := named{c, "own"}
		x = 1
		own.Write([]byte("hello\n"))
		b := make([]byte, 1)
		own.Read(b)
		x++
		own.Write(b)
		own.Close()
		if c, err = l.Accept(); err != nil {
			panic(err)
		}
		t := textproto.NewConn(c)
		line, err := t.ReadLine()
		if err != nil {
			panic(err)
		}
		y++
		t.PrintfLine("%s", line)
		t.Close()
	}()
	c, err := net.Dial("tcp", l.Addr().String())
	if err != nil {
		panic(err)
	}
	b := make([]byte, 6)
	c.Read(b)
	fmt.Println(x)
	x++
	c.Write(b[:1])
	c.Read(b)
	fmt.Println(x)
	t, err := textproto.Dial("tcp", l.Addr().String())
	if err != nil {
		panic(err)
	}
	y = 1
	t.PrintfLine("hi")
	line, err := t.ReadLine()
	fmt.Println(line, err, y)
}
