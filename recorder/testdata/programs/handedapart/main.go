// races: hexed_elem
// why: Decode reads both digits before it finds the first one wrong

package main

import (
	"encoding/hex"
	"sort"
	"strconv"
	"unicode/utf8"
)

var (
	sought = []int{1, 2, 3, 4, 5, 6, 7}
	rising = []int{1, 2, 4, 3, 5}
	sorted = []int{1, 2, 3}
	letter = []byte("\u00e9t\u00e9")
	last   = []byte("t\u00e9")
	hexed  = []byte("61x2")
	plain  = make([]byte, 8)
	digits = make([]byte, 8)
)

// both does a in another goroutine, and b meanwhile.
func both(a, b func()) {
	done := make(chan bool)
	go func() {
		a()
		done <- true
	}()
	b()
	<-done
}

// what functions of the standard library don't read or write of slices
func main() {
	both(func() { sort.SearchInts(sought, 7) }, func() { sought[0], sought[2], sought[4] = 0, 0, 0 })
	both(func() { sort.IntsAreSorted(rising) }, func() { rising[0], rising[1] = 7, 6 })
	both(func() { sort.IntsAreSorted(sorted[:1]) }, func() { sorted[0] = 0 })
	both(func() { sort.Sort(sort.IntSlice(sorted)) }, func() { _ = sorted[1] })
	both(func() { utf8.DecodeRune(letter) }, func() { letter[2] = 'T' })
	both(func() { utf8.DecodeLastRune(last) }, func() { last[0] = 'T' })
	both(func() { hex.Decode(plain, hexed) }, func() { hexed[3], plain[1] = '3', 1 })
	both(func() { hex.Decode(hexed, hexed[:2]) }, func() { hexed[2] = '0' })
	both(func() { strconv.AppendInt(digits[:2], 12, 10) }, func() { digits[1], digits[4] = 1, 1 })
	both(func() { strconv.AppendInt(digits, 12, 10) }, func() { _ = digits[1] })
}
