// Package broken doesn't compile.
package broken

var n int = "no number"
