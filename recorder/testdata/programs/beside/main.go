// races: a, b, c, d, e

package main

import (
	"fmt"
	"math/rand"
	"os"
	"sync"
	"time"
)

var a, b, c, d, e int

// both has two goroutines race for a variable, beside calls of the library whose own locks and pools order them now and then.
func both(f func()) {
	var wg sync.WaitGroup
	for i := 0; i < 2; i++ {
		wg.Add(1)
		go func() { defer wg.Done(); f() }()
	}
	wg.Wait()
}

func main() {
	both(func() { fmt.Println("x"); a++; fmt.Println("y") })
	both(func() { _ = fmt.Sprint(1); b++; _ = fmt.Sprint(2) })
	both(func() { rand.Intn(3); c++; rand.Intn(3) })
	both(func() { os.Getenv("HOME"); d++; os.Getenv("HOME") })
	both(func() { time.Sleep(time.Millisecond); e++; time.Now() })
}
