// races: begun_elem, ended_elem, equal_elem, other_elem, folded_elem, secret_elem, any_elem, last_elem, lastOf_elem, trimmed_elem, left_elem, right_elem, spaced_elem, valid_elem, copied_elem, old_elem, put_elem, joined_elem, between_elem; perhaps: ordered_elem, found_elem, sought_elem, missing_elem, byte1_elem, rune1_elem, held_elem, cut_elem, counted_elem, split_elem, few_elem, full_elem
// why: what assembly reads, as that of Compare, Count, Index and IndexByte, isn't recorded

package main

import (
	"bytes"
	"crypto/subtle"
	"unicode"
	"unicode/utf8"
)

func text() []byte { return []byte("abc, def, abc") }

var (
	begun, ended, equal, other, folded, secret, ordered = text(), text(), text(), text(), text(), text(), text()
	found, sought, missing, byte1, any, rune1, held     = text(), text(), text(), text(), text(), text(), text()
	last, lastOf, cut, counted, split, few, trimmed     = text(), text(), text(), text(), text(), text(), text()
	left, right, spaced, full, valid                    = text(), text(), text(), []byte("\u00e9t"), text()
	copied, old, put, between                           = text(), text(), text(), text()
	joined                                              = [][]byte{text(), text()}
)

// both does a in another goroutine, and b meanwhile.
func both(a, b func()) {
	done := make(chan bool)
	go func() {
		a()
		done <- true
	}()
	b()
	<-done
}

// What functions of the standard library read of slices.
func main() {
	both(func() { bytes.HasPrefix(begun, []byte("abc")) }, func() { begun[2] = 'c' })
	both(func() { bytes.HasSuffix(ended, []byte("abc")) }, func() { ended[10] = 'a' })
	both(func() { bytes.Equal(equal, text()) }, func() { equal[12] = 'c' })
	both(func() { bytes.Equal(text(), other) }, func() { other[12] = 'c' })
	both(func() { bytes.EqualFold(folded, text()) }, func() { folded[12] = 'c' })
	both(func() { subtle.ConstantTimeCompare(secret, make([]byte, 13)) }, func() { secret[12] = 'c' })
	both(func() { bytes.Compare(ordered, []byte("abd")) }, func() { ordered[2] = 'c' })
	both(func() { bytes.Index(found, []byte("c,")) }, func() { found[3] = ',' })
	both(func() { bytes.Contains([]byte("a"+string(text())), sought) }, func() { sought[12] = 'c' })
	both(func() { bytes.Contains(missing, []byte("no")) }, func() { missing[11] = 'b' })
	both(func() { bytes.IndexByte(byte1, 'd') }, func() { byte1[5] = 'd' })
	both(func() { bytes.IndexAny(any, "xyz") }, func() { any[12] = 'c' })
	both(func() { bytes.IndexRune(rune1, 'd') }, func() { rune1[0] = 'a' })
	both(func() { bytes.ContainsRune(held, 'd') }, func() { held[5] = 'd' })
	both(func() { bytes.LastIndexByte(last, 'd') }, func() { last[6] = 'e' })
	both(func() { bytes.LastIndex(lastOf, []byte("de")) }, func() { lastOf[12] = 'c' })
	both(func() { bytes.Cut(cut, []byte(",")) }, func() { cut[3] = ',' })
	both(func() { bytes.Count(counted, []byte(",")) }, func() { counted[12] = 'c' })
	both(func() { bytes.Split(split, []byte(",")) }, func() { split[12] = 'c' })
	both(func() { bytes.SplitN(few, []byte(","), 2) }, func() { few[3] = ',' })
	both(func() { bytes.Trim(trimmed, "a") }, func() { trimmed[1] = 'b' })
	both(func() { bytes.TrimLeft(left, "ab") }, func() { left[2] = 'c' })
	both(func() { bytes.TrimRightFunc(right, unicode.IsLetter) }, func() { right[9] = ' ' })
	both(func() { bytes.TrimSpace(spaced) }, func() { spaced[12] = 'c' })
	both(func() { utf8.FullRune(full) }, func() { full[1] = '\xa9' })
	both(func() { bytes.Replace(copied, []byte("d"), nil, 1) }, func() { copied[12] = 'c' })
	both(func() { bytes.ReplaceAll(text(), old, nil) }, func() { old[12] = 'c' })
	both(func() { bytes.ReplaceAll(text(), []byte("d"), put) }, func() { put[12] = 'c' })
	both(func() { bytes.Join(joined, nil) }, func() { joined[1] = nil })
	both(func() { bytes.Join([][]byte{nil, nil}, between) }, func() { between[12] = 'c' })
	both(func() { utf8.Valid(valid) }, func() { valid[12] = 'c' })
}
