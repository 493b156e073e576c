package main

import "os"

func main() {
	if len(os.Args) > 1 {
		n, begun := 0, make(chan bool)
		go func() { n++; begun <- true }()
		n++
		<-begun
	}
	os.Exit(1)
}
