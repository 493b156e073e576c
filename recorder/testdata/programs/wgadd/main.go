// races: wg, total

package main

import (
	"fmt"
	"sync"
	"time"
)

func main() {
	var wg sync.WaitGroup
	total := 0
	wg.Add(1)
	go func() {
		time.Sleep(300 * time.Millisecond)
		wg.Add(1) // too late: beside the Wait
		total++
		wg.Done()
	}()
	go func() {
		time.Sleep(50 * time.Millisecond)
		wg.Done()
	}()
	wg.Wait()
	time.Sleep(600 * time.Millisecond)
	fmt.Println(total)
}
