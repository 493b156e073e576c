// clean

// Package closes has correct programs, in which what closes a file or a connection, or sets its deadline, ends a write of another
// goroutine.
package closes

import (
	"errors"
	"net"
	"os"
	"path/filepath"
	"testing"
	"time"
)

func tcp(t *testing.T) (a, b net.Conn) {
	l, err := net.Listen("tcp", "127.0.0.1:0")
	if err != nil {
		t.Fatal(err)
	}
	defer l.Close()
	if a, err = net.Dial("tcp", l.Addr().String()); err != nil {
		t.Fatal(err)
	}
	if b, err = l.Accept(); err != nil {
		t.Fatal(err)
	}
	return a, b
}

// A writer that nobody reads from ends by Close, and says why it was closed.
func TestCloseEndsWrite(t *testing.T) {
	a, b := tcp(t)
	defer b.Close()
	reason := ""
	done := make(chan bool, 1)
	go func() {
		buf := make([]byte, 1<<20)
		for {
			if _, err := a.Write(buf); err != nil {
				if !errors.Is(err, net.ErrClosed) || reason != "bye" {
					t.Error(err, reason)
				}
				done <- true
				return
			}
		}
	}()
	time.Sleep(100 * time.Millisecond)
	reason = "bye"
	a.Close()
	<-done
}

// Write after Close.
func TestWriteAfterClose(t *testing.T) {
	a, b := tcp(t)
	defer b.Close()
	reason := ""
	done := make(chan bool, 1)
	go func() {
		for {
			if _, err := a.Write([]byte("x")); err != nil {
				if reason != "bye" {
					t.Error(err, reason)
				}
				done <- true
				return
			}
			time.Sleep(time.Millisecond)
		}
	}()
	time.Sleep(20 * time.Millisecond)
	reason = "bye"
	a.Close()
	<-done
}

// A deadline ends Write.
func TestDeadlineEndsWrite(t *testing.T) {
	a, b := tcp(t)
	defer a.Close()
	defer b.Close()
	reason := ""
	done := make(chan bool, 1)
	go func() {
		buf := make([]byte, 1<<20)
		for {
			if _, err := a.Write(buf); err != nil {
				if reason != "late" {
					t.Error(err, reason)
				}
				done <- true
				return
			}
		}
	}()
	time.Sleep(100 * time.Millisecond)
	reason = "late"
	a.SetWriteDeadline(time.Now())
	<-done
}

// Close ends a Write to a pipe.
func TestPipeCloseEndsWrite(t *testing.T) {
	r, w, err := os.Pipe()
	if err != nil {
		t.Fatal(err)
	}
	defer r.Close()
	reason := ""
	done := make(chan bool, 1)
	go func() {
		buf := make([]byte, 1<<20)
		if _, err := w.Write(buf); err != nil && reason != "bye" {
			t.Error(err, reason)
		}
		done <- true
	}()
	time.Sleep(100 * time.Millisecond)
	reason = "bye"
	w.Close()
	<-done
}

func TestWriteAtAfterClose(t *testing.T) {
	f, err := os.Create(filepath.Join(t.TempDir(), "x"))
	if err != nil {
		t.Fatal(err)
	}
	reason := ""
	done := make(chan bool)
	go func() {
		for {
			if _, err := f.WriteAt([]byte("x"), 0); err != nil {
				if !errors.Is(err, os.ErrClosed) || reason != "bye" {
					t.Error(err, reason)
				}
				close(done)
				return
			}
			time.Sleep(time.Millisecond)
		}
	}()
	time.Sleep(10 * time.Millisecond)
	reason = "bye"
	f.Close()
	<-done
}

func TestCloseWrite(t *testing.T) {
	l, _ := net.Listen("tcp", "127.0.0.1:0")
	defer l.Close()
	a, err := net.Dial("tcp", l.Addr().String())
	if err != nil {
		t.Fatal(err)
	}
	defer a.Close()
	reason := ""
	done := make(chan bool)
	go func() {
		for {
			if _, err := a.Write([]byte("x")); err != nil {
				if reason != "bye" {
					t.Error(err, reason)
				}
				close(done)
				return
			}
			time.Sleep(time.Millisecond)
		}
	}()
	time.Sleep(10 * time.Millisecond)
	reason = "bye"
	a.(*net.TCPConn).CloseWrite()
	<-done
}

func TestUDPClose(t *testing.T) {
	a, err := net.Dial("udp", "127.0.0.1:9")
	if err != nil {
		t.Fatal(err)
	}
	reason := ""
	done := make(chan bool)
	go func() {
		for {
			if _, err := a.Write([]byte("x")); errors.Is(err, net.ErrClosed) {
				if reason != "bye" {
					t.Error(err, reason)
				}
				close(done)
				return
			}
			time.Sleep(time.Millisecond)
		}
	}()
	time.Sleep(10 * time.Millisecond)
	reason = "bye"
	a.Close()
	<-done
}
