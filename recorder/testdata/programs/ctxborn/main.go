// races: hits

package main

import (
	"context"
	"fmt"
	"time"
)

// query is done at once where its context is canceled.
func query(ctx context.Context) error {
	ctx, cancel := context.WithTimeout(ctx, time.Minute)
	defer cancel()
	<-ctx.Done()
	return ctx.Err()
}

func handle(ctx context.Context) error {
	ctx, cancel := context.WithTimeout(ctx, time.Hour)
	defer cancel()
	return query(ctx)
}

func main() {
	reason, hits := "", 0
	ctx, cancel := context.WithCancel(context.Background())
	done := make(chan error)
	for i := 0; i < 2; i++ {
		go func() {
			for ctx.Err() == nil {
				time.Sleep(time.Millisecond)
			}
			done <- handle(ctx)
		}()
	}
	isLate := func() bool {
		child, stop := context.WithCancel(ctx)
		defer stop()
		select {
		case <-child.Done():
			fmt.Println(reason) // written before cancel
			done <- handle(child)
			return true
		case <-time.After(time.Millisecond):
			return false
		}
	}
	go func() {
		for !isLate() {
		}
	}()
	reason = "enough"
	cancel()
	for i := 0; i < 3; i++ {
		fmt.Println(<-done)
	}
	late, stop := context.WithTimeout(context.Background(), -1)
	defer stop()
	go func() {
		query(late)
		hits++ // no order comes of a context that was done where it was made
		done <- nil
	}()
	handle(late)
	hits++
	<-done
}
