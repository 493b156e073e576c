// races: late

package main

import (
	"context"
	"io"
	"net"
	"net/http"
	"net/http/httptest"
	"os"
	"os/signal"
	"time"
)

// Who waits for a pipe, a listener or a connection comes behind what was done before it was written
// to or closed; what was done later races.
var late int

func piped(w io.WriteCloser, r io.ReadCloser) int {
	n, done := 0, make(chan int)
	go func() {
		r.Read(make([]byte, 2))
		if _, err := r.Read(make([]byte, 2)); err != io.EOF {
			panic(err)
		}
		done <- n
		late++
	}()
	w.Write([]byte("hi"))
	n = 2
	w.Close()
	return <-done
}

func listened() int {
	l, err := net.Listen("tcp", "127.0.0.1:0")
	if err != nil {
		panic(err)
	}
	n := 0
	go func() {
		n = 4
		l.Close()
	}()
	if _, err = l.Accept(); err == nil {
		panic("accepted")
	}
	return n
}

type key struct{}

func limited() int {
	inner := http.HandlerFunc(func(w http.ResponseWriter, r *http.Request) { *r.Context().Value(key{}).(*int) = 5 })
	h, n := http.TimeoutHandler(inner, time.Minute, "late"), 0
	r := httptest.NewRequest("GET", "/", nil)
	h.ServeHTTP(httptest.NewRecorder(), r.WithContext(context.WithValue(r.Context(), key{}, &n)))
	return n
}

func notified() int {
	ctx, stop := signal.NotifyContext(context.Background(), os.Interrupt)
	n, done := 0, make(chan int)
	go func() {
		<-ctx.Done()
		done <- n
	}()
	n = 6
	stop()
	return <-done
}

func main() {
	r, w := io.Pipe()
	a, b := net.Pipe()
	n := piped(w, r) + piped(a, b) + listened() + limited() + notified()
	late++
	if time.Sleep(20 * time.Millisecond); n != 2+2+4+5+6 {
		panic(n)
	}
}
