// hides: seen

// Two change a map, and a channel with room for one orders them.
package main

import "example.com/predict/side"

func main() {
	seen := map[string]bool{}
	sem := make(chan bool, 1)
	side.OneByOne(func() {
		seen["a"] = true
		sem <- true
		<-sem
	}, func() {
		sem <- true
		<-sem
		seen["b"] = true
	})
}
