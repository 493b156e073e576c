// clean

package main

import (
	"fmt"
	"os"
	"os/signal"
	"syscall"
	"time"
)

// A goroutine waits on a channel before package signal comes to use it.
func main() {
	signals, quit, done := make(chan os.Signal, 1), make(chan bool), make(chan os.Signal)
	go func() {
		select {
		case s := <-signals:
			done <- s
		case <-quit:
		}
	}()
	time.Sleep(10 * time.Millisecond)
	signal.Notify(signals, syscall.SIGUSR1)
	syscall.Kill(os.Getpid(), syscall.SIGUSR1)
	fmt.Println(<-done)
}
