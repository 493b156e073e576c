// clean

package main

import (
	"fmt"
	"os"
	"os/signal"
	"syscall"
)

// The signal's own delivery and Stop take one lock of os/signal, so n is written before it is read.
func main() {
	n := 0
	c, own := make(chan os.Signal, 2), make(chan os.Signal, 1)
	signal.Notify(c, syscall.SIGUSR2)
	signal.Notify(own, syscall.SIGUSR1)
	go func() {
		<-own
		n++
		signal.Stop(own)
		syscall.Kill(os.Getpid(), syscall.SIGUSR2)
	}()
	syscall.Kill(os.Getpid(), syscall.SIGUSR1)
	<-c
	fmt.Println(n)
}
