// clean

// Package contexts has correct programs: a context that net/http derives is cancelled by the program, or by net/http at a handler's end.
package contexts

import (
	"context"
	"net"
	"net/http"
	"net/http/httptest"
	"sync"
	"testing"
	"time"
)

// A server's base context is cancelled; its handlers see what was set before.
func TestBaseContext(t *testing.T) {
	ctx, cancel := context.WithCancel(context.Background())
	reason := ""
	started := make(chan bool)
	ts := httptest.NewUnstartedServer(http.HandlerFunc(func(w http.ResponseWriter, r *http.Request) {
		close(started)
		<-r.Context().Done()
		w.Header().Set("X", reason)
	}))
	ts.Config.BaseContext = func(net.Listener) context.Context { return ctx }
	ts.Start()
	defer ts.Close()
	go func() {
		<-started
		reason = "shutdown"
		cancel()
	}()
	res, err := http.Get(ts.URL)
	if err != nil {
		t.Fatal(err)
	}
	res.Body.Close()
}

// A goroutine of a handler waits for its end, and then reads what the handler did.
func TestHandlerEnd(t *testing.T) {
	var wg sync.WaitGroup
	ts := httptest.NewServer(http.HandlerFunc(func(w http.ResponseWriter, r *http.Request) {
		n := 0
		wg.Add(1)
		go func() {
			defer wg.Done()
			<-r.Context().Done()
			if n != 1 {
				t.Error(n)
			}
		}()
		time.Sleep(time.Millisecond)
		n = 1
	}))
	defer ts.Close()
	res, err := http.Get(ts.URL)
	if err != nil {
		t.Fatal(err)
	}
	res.Body.Close()
	wg.Wait()
}

// The same with a context made from the request's.
func TestHandlerEndChild(t *testing.T) {
	var wg sync.WaitGroup
	ts := httptest.NewServer(http.HandlerFunc(func(w http.ResponseWriter, r *http.Request) {
		ctx, cancel := context.WithTimeout(r.Context(), time.Minute)
		_ = cancel
		n := 0
		wg.Add(1)
		go func() {
			defer wg.Done()
			<-ctx.Done()
			if n != 1 {
				t.Error(n)
			}
		}()
		time.Sleep(time.Millisecond)
		n = 1
	}))
	defer ts.Close()
	res, err := http.Get(ts.URL)
	if err != nil {
		t.Fatal(err)
	}
	res.Body.Close()
	wg.Wait()
}

// A base context with a timeout made in the handler.
func TestBaseChild(t *testing.T) {
	ctx, cancel := context.WithCancel(context.Background())
	reason := ""
	started := make(chan bool)
	ts := httptest.NewUnstartedServer(http.HandlerFunc(func(w http.ResponseWriter, r *http.Request) {
		c, stop := context.WithTimeout(r.Context(), time.Minute)
		defer stop()
		close(started)
		select {
		case <-c.Done():
			w.Header().Set("X", reason)
		case <-time.After(time.Minute):
		}
	}))
	ts.Config.BaseContext = func(net.Listener) context.Context { return ctx }
	ts.Start()
	defer ts.Close()
	go func() {
		<-started
		reason = "shutdown"
		cancel()
	}()
	res, err := http.Get(ts.URL)
	if err != nil {
		t.Fatal(err)
	}
	res.Body.Close()
}
