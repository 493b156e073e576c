package main

import (
	"fmt"
	"os"
	"time"
)

func main() {
	n := 0
	go func() { n++ }()
	time.Sleep(20 * time.Millisecond)
	n++
	if len(os.Args) > 1 {
		fmt.Println(os.Getpid())
	} else {
		fmt.Println("waits")
	}
	time.Sleep(time.Minute)
}
