// races: sought_elem, words_elem, floats_elem, rising_elem, summed|summed_elem, letter_elem, last_elem, pairs|pairs_elem, hexed_elem, plain_elem, coded_elem, full_elem, sorting_elem, turned_elem, ended_elem; perhaps: digits_elem
// why: from Go 1.26 on what strconv appends is written by a package of the runtime's, which isn't recorded

package main

import (
	"crypto/sha256"
	"encoding/base64"
	"encoding/hex"
	"sort"
	"strconv"
	"strings"
	"unicode/utf8"
)

var (
	sought  = []int{1, 2, 3}
	words   = []string{"a", "b"}
	floats  = []float64{1, 2, 3}
	rising  = []int{3, 1, 2}
	summed  = make([]byte, 8)
	letter  = []byte("\u00e9tttttttt")
	last    = []byte("tttttt\u00e9")
	pairs   = []string{"a", "b"}
	hexed   = []byte("61626364")
	plain   = make([]byte, 8)
	coded   = []byte("YWJjZGVm")
	digits  = make([]byte, 8)
	full    = make([]byte, 8, 8)
	sorting = []int{3, 2, 1}
	turned  = []string{"a", "b"}
	ended   = []float64{1, 2, 3}
)

// both does a in another goroutine, and b meanwhile.
func both(a, b func()) {
	done := make(chan bool)
	go func() {
		a()
		done <- true
	}()
	b()
	<-done
}

// what functions of the standard library read and write of slices
func main() {
	both(func() { sort.SearchInts(sought, 2) }, func() { sought[1] = 4 })
	both(func() { sort.SearchStrings(words, "b") }, func() { words[1] = "c" })
	both(func() { sort.SearchFloat64s(floats, 0) }, func() { floats[0] = 4 })
	both(func() { sort.IntsAreSorted(rising) }, func() { rising[1] = 5 })
	both(func() { sha256.Sum256(summed) }, func() { summed[7] = 1 })
	both(func() { utf8.DecodeRune(letter) }, func() { letter[1]++ })
	both(func() { utf8.DecodeLastRune(last) }, func() { last[6]++ })
	both(func() { strings.NewReplacer(pairs...) }, func() { pairs[1] = "c" })
	both(func() { hex.Decode(make([]byte, 4), hexed) }, func() { hexed[2]++ })
	both(func() { hex.Decode(plain, []byte("6162")) }, func() { _ = plain[1] })
	both(func() { base64.StdEncoding.Decode(make([]byte, 8), coded) }, func() { coded[0]++ })
	both(func() { strconv.AppendInt(digits[:0], 12, 10) }, func() { digits[1]++ })
	both(func() { strconv.AppendFloat(full, 1, 'g', -1, 64) }, func() { full[2]++ })
	both(func() { sort.Sort(sort.IntSlice(sorting)) }, func() { _ = sorting[2] })
	both(func() { sort.Stable(sort.Reverse(sort.StringSlice(turned))) }, func() { turned[0] = "c" })
	both(func() { _ = sort.IsSorted(sort.Float64Slice(ended)) }, func() { ended[0] = 4 })
}
