// races: names_elem

package main

import (
	"fmt"
	"sort"
)

func main() {
	names := []string{"c", "a", "b"}
	done := make(chan bool)
	go func() {
		sort.Slice(names, func(i, j int) bool { return names[i] < names[j] })
		done <- true
	}()
	fmt.Println(len(names[0]))
	<-done
	sort.Strings(names)
	fmt.Println(names)
}
