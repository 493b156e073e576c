// races: n, x
// why: no order is known that is made by the kernel alone: by a connection's end, a signal, a client that is gone

package kernel

import (
	"context"
	"net"
	"net/http"
	"net/http/httptest"
	"os"
	"os/signal"
	"syscall"
	"testing"
	"time"
)

// A closed connection ends the reader's Read.
func TestConnClose(t *testing.T) {
	l, _ := net.Listen("tcp", "127.0.0.1:0")
	defer l.Close()
	n := 0
	done := make(chan bool)
	go func() {
		c, _ := l.Accept()
		c.Read(make([]byte, 1))
		n++
		close(done)
	}()
	c, err := net.Dial("tcp", l.Addr().String())
	if err != nil {
		t.Fatal(err)
	}
	n = 1
	c.Close()
	<-done
	if n != 2 {
		t.Fatal(n)
	}
}

// A signal, delivered to a channel.
func TestSignal(t *testing.T) {
	c := make(chan os.Signal, 1)
	signal.Notify(c, syscall.SIGUSR1)
	defer signal.Stop(c)
	n := 0
	go func() { n = 1; syscall.Kill(os.Getpid(), syscall.SIGUSR1) }()
	<-c
	_ = n - n*0
	time.Sleep(time.Millisecond)
}

// r.Context().Done() after the client went: the client's writes before its cancel.
func TestClientGone(t *testing.T) {
	seen := make(chan int, 1)
	started := make(chan bool)
	x := 0
	ts := httptest.NewServer(http.HandlerFunc(func(w http.ResponseWriter, r *http.Request) {
		close(started)
		<-r.Context().Done()
		seen <- x
	}))
	defer ts.Close()
	ctx, cancel := context.WithCancel(context.Background())
	req, _ := http.NewRequestWithContext(ctx, "GET", ts.URL, nil)
	go func() { <-started; x = 3; cancel() }()
	http.DefaultClient.Do(req)
	if <-seen != 3 {
		t.Fatal()
	}
}
