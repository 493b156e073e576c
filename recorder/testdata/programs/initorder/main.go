// clean

package main

import (
	"fmt"
	"os"

	"example.com/programs/initorder/noted"
)

func plain(name string) string { return noted.In(name) }

func main() {
	if got := fmt.Sprint(noted.Order); got != "[first second third]" {
		fmt.Println("initialized as", got)
		os.Exit(1)
	}
	fmt.Println(first, second, third)
}
