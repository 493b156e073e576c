// races: s_elem, m

package main

import (
	"fmt"
	"os"
	"os/signal"
	"syscall"
)

func increment[S ~[]E, E ~int](s S) { s[1]++ }

func put[M ~map[K]V, K comparable, V any](m M, k K, v V) { m[k] = v }

func open[C ~chan E, E any](n int) C { return make(C, n) }

// drain takes channels of both directions, of which it receives alone.
func drain[C chan int | ~<-chan int](c C) (sum int) {
	for v := range c {
		sum += v
	}
	return sum
}

func drainShared[C chan int | ~<-chan int](c C) (sum int) {
	for v := range c {
		func() { v++ }()
		sum += v
	}
	return sum
}

func openEither[C chan int | chan<- int](n int) C { return make(C, n) }

func notify[C chan os.Signal | chan<- os.Signal](c C) { signal.Notify(c, syscall.SIGUSR1) }

// directed uses channels of type parameters that stand for several directions.
func directed() {
	c, d := openEither[chan int](0), openEither[chan int](0)
	go func() {
		for i := 0; i < 3; i++ {
			c <- i
			d <- i
		}
		close(c)
		close(d)
	}()
	shared := make(chan int)
	go func() { shared <- drainShared(d) }()
	fmt.Println(drain((<-chan int)(c)), <-shared, cap(openEither[chan<- int](2)))
	signals, got := make(chan os.Signal, 1), make(chan os.Signal)
	go func() { got <- <-signals }()
	notify((chan<- os.Signal)(signals))
	syscall.Kill(os.Getpid(), syscall.SIGUSR1)
	fmt.Println(<-got)
}

func main() {
	directed()
	cells, counts := make([]int, 3), map[string]int{}
	first, second := open[chan int](1), open[chan int](0)
	sum := 0
	go func() {
		increment(cells)
		sum = 1
		first <- 1
		put(counts, "a", 1)
		second <- 1
	}()
	increment(cells)
	<-first
	sum++
	put(counts, "b", 1)
	<-second
}
