// clean

package main

import (
	"bufio"
	"encoding/json"
	"fmt"
	"io"
	"net"
	"net/http"
	"net/http/httptest"
	"strings"
)

// Connections in structs that embed them, and one that is taken from package http.
type named struct {
	net.Conn
	name string
}

type line struct{ *bufio.ReadWriter }

func main() {
	got, asked := "", 0
	server := httptest.NewServer(http.HandlerFunc(func(w http.ResponseWriter, r *http.Request) {
		c, both, err := w.(http.Hijacker).Hijack()
		if err != nil {
			panic(err)
		}
		go func() {
			defer c.Close()
			for i := 0; i < 4; i++ {
				text, err := both.ReadString('\n')
				if err != nil {
					panic(err)
				}
				asked++
				got += text
				fmt.Fprintf(both, "%d", i)
				both.WriteByte('\n')
				both.Flush()
			}
		}()
	}))
	c, err := net.Dial("tcp", server.Listener.Addr().String())
	if err != nil {
		panic(err)
	}
	own := &named{c, "own"}
	in := line{bufio.NewReadWriter(bufio.NewReader(own), bufio.NewWriter(own))}
	fmt.Fprint(own, "GET / HTTP/1.1\r\nHost: x\r\n\r\n")
	for i, write := range []func() error{
		func() error { _, err := fmt.Fprintln(own, "one"); return err },
		func() error { return json.NewEncoder(own).Encode(2) },
		func() error { _, err := io.Copy(own, strings.NewReader("three\n")); return err },
		func() error { fmt.Fprintln(in, "four"); return in.Flush() },
	} {
		got += fmt.Sprint(asked)
		if err := write(); err != nil {
			panic(err)
		}
		if text, err := in.ReadString('\n'); err != nil || text != fmt.Sprintln(i) {
			panic(text)
		}
	}
	fmt.Printf("%q\n", got)
	server.Close()
}
