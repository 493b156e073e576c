package main

var words = "plain"

func main() {
	println(words)
}
