// races: counts

package main

import "fmt"

func main() {
	counts := map[string]int{"a": 1}
	done := make(chan bool)
	go func() {
		_ = fmt.Sprint(counts)
		done <- true
	}()
	counts["b"] = 2
	<-done
	fmt.Println(len(counts))
}
