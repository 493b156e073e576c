// clean

package main

import (
	"context"
	"fmt"
	"time"
)

func wait(ctx context.Context, ready chan int) error {
	select {
	case <-ctx.Done():
		return ctx.Err()
	case <-ready:
		return nil
	}
}

func main() {
	ready := make(chan int)
	for i := 0; i < 3; i++ {
		ctx, cancel := context.WithTimeout(context.Background(), 5*time.Millisecond)
		if wait(ctx, ready) == nil {
			panic("no error at the deadline")
		}
		cancel()
		ctx, cancel = context.WithCancel(context.Background())
		done := make(chan error)
		go func() { done <- wait(ctx, ready) }()
		cancel()
		if <-done == nil {
			panic("no error behind cancel")
		}
	}
	fmt.Println("ended")
}
