// races: stack_items; perhaps: stack_items_elem
// why: the second may copy what the first has appended

package main

import (
	"fmt"
	"sync"
)

type stack[T any] struct{ items []T }

func (s *stack[T]) push(v T) { s.items = append(s.items, v) }

func main() {
	s := &stack[string]{}
	var wg sync.WaitGroup
	wg.Add(2)
	for _, v := range []string{"a", "b"} {
		go func(v string) {
			defer wg.Done()
			s.push(v)
		}(v)
	}
	wg.Wait()
	fmt.Println(len(s.items) > 0)
}
