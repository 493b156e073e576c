// clean

package main

import "sync/atomic"

// A node has its own type behind a pointer, as an argument of a type of which it has a value.
type node struct {
	value int
	next  atomic.Pointer[node]
}

type box[T any] struct{ in *T }

type tree[T any] struct {
	value T
	left  box[tree[T]]
}

func main() {
	first := &node{value: 1}
	last := &node{value: 2}
	root := &tree[int]{value: 3}
	root.left = box[tree[int]]{&tree[int]{value: 4}}
	done := make(chan bool)
	go func() {
		last.value++
		root.left.in.value++
		first.next.Store(last)
		<-done
	}()
	for first.next.Load() == nil {
	}
	done <- true
	if n := first.next.Load().value + root.left.in.value; n != 8 {
		panic(n)
	}
}
