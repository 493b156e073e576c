// A program that is built where it is named alone: neither its name nor its constraints fit.

//go:build ignore && !linux
// +build ignore,!linux

package main

/*
//go:build none
*/
const text = `
//go:build none
`

func main() { println(len(text)) }
