// clean

package main

import (
	"container/list"
	"context"
	"fmt"
	"io"
	"sync"
)

type key struct{}

// channels that the library keeps or prints are the program's still
func main() {
	var m sync.Map
	var l list.List
	first, second, third, n := make(chan int), make(chan int), make(chan int), 0
	m.Store("first", first)
	l.PushBack(second)
	ctx := context.WithValue(context.Background(), key{}, third)
	fmt.Fprint(io.Discard, first, second, third)
	send := func(c any) {
		n++
		c.(chan int) <- 1
	}
	c, _ := m.Load("first")
	go send(c)
	<-first
	go send(l.Front().Value)
	<-second
	go send(ctx.Value(key{}))
	<-third
	n++
}
