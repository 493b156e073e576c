// clean

package main

import (
	"fmt"
	"os"
	"strings"

	"example.com/programs/embeds/assets"
)

func main() {
	found, err := assets.Files.ReadDir(".")
	if err != nil {
		panic(err)
	}
	var names []string
	for _, f := range found {
		names = append(names, f.Name())
	}
	text, err := assets.Files.ReadFile("template.go")
	if err != nil {
		panic(err)
	}
	if got := fmt.Sprint(names); got != "[assets.go note.txt template.go]" || !strings.HasPrefix(string(text), "//go:build ignore\n") {
		fmt.Printf("embedded are %s\n%s", got, text)
		os.Exit(1)
	}
}
