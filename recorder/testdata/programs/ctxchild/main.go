// clean

package main

import (
	"context"
	"fmt"
	"sync"
)

// Contexts are made of one that is about to be canceled.
func main() {
	for i := 0; i < 200; i++ {
		ctx, cancel := context.WithCancel(context.Background())
		reason := ""
		var wg sync.WaitGroup
		wg.Add(3)
		go func() {
			defer wg.Done()
			reason = "enough"
			cancel()
		}()
		for j := 0; j < 2; j++ {
			go func() {
				defer wg.Done()
				for k := 0; k < 3; k++ {
					child, stop := context.WithCancel(ctx)
					<-child.Done()
					if reason == "" {
						panic("too early")
					}
					stop()
				}
			}()
		}
		wg.Wait()
	}
	fmt.Println("canceled")
}
