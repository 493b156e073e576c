// clean

package main

import (
	"fmt"
	"os"
	"os/signal"
	"syscall"
	"time"
)

// A signal comes through a channel without a buffer only if somebody waits there.
func main() {
	came := make(chan os.Signal)
	signal.Notify(came, syscall.SIGUSR1)
	go func() {
		time.Sleep(50 * time.Millisecond)
		syscall.Kill(os.Getpid(), syscall.SIGUSR1)
	}()
	select {
	case s := <-came:
		fmt.Println(s)
	case <-time.After(5 * time.Second):
		panic("no signal")
	}
}
