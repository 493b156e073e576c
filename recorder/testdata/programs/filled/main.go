// races: settings_Port|s, tags, old_elem|list_elem

package main

import (
	"encoding/json"
	"fmt"
	"strings"
	"time"
)

type settings struct {
	Port  int
	Names []string
}

func main() {
	s := &settings{Port: 80}
	done := make(chan error)
	go func() {
		done <- json.Unmarshal([]byte(`{"Port": 8080, "Names": ["a", "b"]}`), s)
	}()
	if s.Port == 1 {
		fmt.Println("never")
	}
	fmt.Println(<-done, len(s.Names))
	again()
}

// again fills what is there: a map, and what stands behind the end of a slice.
func again() {
	tags, old := map[string]int{"a": 1}, []int{1, 2}
	list, done := old[:0], make(chan error)
	go func() {
		time.Sleep(10 * time.Millisecond)
		json.NewDecoder(strings.NewReader(`{"a": 2}`)).Decode(&tags)
		done <- json.Unmarshal([]byte(`[3]`), &list)
	}()
	fmt.Println(tags["a"]+old[0] > 0)
	fmt.Println(<-done)
}
