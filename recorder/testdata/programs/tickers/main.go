// clean

package main

import (
	"context"
	"fmt"
	"net/http"
	"net/http/httptest"
	"sync"
	"time"
)

const waiters, rounds = 20, 60

// tick waits for tickers, channels and contexts at once.
func tick() {
	var wg sync.WaitGroup
	sum := make([]int, waiters)
	ticks := make([]int, waiters)
	for i := 0; i < waiters; i++ {
		i := i
		c, stop := make(chan int), make(chan struct{})
		ctx, cancel := context.WithCancel(context.Background())
		wg.Add(2)
		go func() {
			defer wg.Done()
			for k := 1; k <= rounds; k++ {
				c <- k
				if k%3 == 0 { // about as often as the ticker
					time.Sleep(time.Duration(k%7) * 100 * time.Microsecond)
				}
			}
			if i%2 == 0 {
				cancel()
			} else {
				close(stop)
			}
		}()
		go func() {
			defer wg.Done()
			t := time.NewTicker(300 * time.Microsecond)
			defer t.Stop()
			for {
				select {
				case v := <-c:
					sum[i] += v
				case <-t.C:
					ticks[i]++
					if ticks[i]%10 == 0 {
						t.Reset(300 * time.Microsecond)
					}
				case <-ctx.Done():
					return
				case <-stop:
					cancel()
					return
				}
			}
		}()
	}
	wg.Wait()
	for i := range sum {
		if sum[i] != rounds*(rounds+1)/2 {
			fmt.Println("lost", i, sum[i])
		}
	}
}

// leave has a handler wait for a channel, and for its client.
func leave() {
	left := make(chan struct{})
	s := httptest.NewServer(http.HandlerFunc(func(w http.ResponseWriter, r *http.Request) {
		own := make(chan int)
		w.WriteHeader(200)
		w.(http.Flusher).Flush()
		select {
		case <-r.Context().Done():
			close(left)
		case <-own:
		}
	}))
	ctx, cancel := context.WithCancel(context.Background())
	req, _ := http.NewRequestWithContext(ctx, "GET", s.URL, nil)
	resp, err := http.DefaultClient.Do(req)
	if err != nil {
		fmt.Println(err)
		return
	}
	cancel()
	<-left
	resp.Body.Close()
	s.Close()
}

func main() {
	tick()
	leave()
}
