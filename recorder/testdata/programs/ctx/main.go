// clean

package main

import (
	"context"
	"fmt"
	"sync"
	"time"
)

func work(ctx context.Context, id int, out chan<- int) {
	t := time.NewTicker(time.Millisecond)
	defer t.Stop()
	for i := 0; ; i++ {
		select {
		case <-ctx.Done():
			return
		case <-t.C:
			select {
			case out <- id*100 + i:
			case <-ctx.Done():
				return
			}
		}
	}
}

func main() {
	ctx, cancel := context.WithCancel(context.Background())
	out := make(chan int)
	var wg sync.WaitGroup
	reason := ""
	for i := 0; i < 2; i++ {
		wg.Add(1)
		go func(i int) {
			defer wg.Done()
			work(ctx, i, out)
			_ = len(reason) // written before cancel
		}(i)
	}
	for i := 0; i < 5; i++ {
		<-out
	}
	reason = "enough"
	cancel()
	wg.Wait()
	short, stop := context.WithTimeout(context.Background(), 2*time.Millisecond)
	defer stop()
	<-short.Done()
	fmt.Println(reason, short.Err())
}
