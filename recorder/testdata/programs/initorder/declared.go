package main

var calls int

// What first is made by has recorded accesses, and so the package's sites; what second is made by
// has none.
var first = recorded("first")
var second = plain("second")
var third = recorded("third")

func recorded(name string) string {
	calls++
	return plain(name)
}
