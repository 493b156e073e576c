// clean

package main

import (
	"bytes"
	"crypto/hmac"
	"io"
	"strings"
	"unicode"
	"unicode/utf8"
)

// text is long enough for what is read at its ends.
func text() []byte { return []byte("abc, def, abc") }

var (
	short = []byte("ab")
	long  = []byte("abcabcabcabcabc")
)

// both does a in another goroutine, and b meanwhile.
func both(a, b func()) {
	done := make(chan bool)
	go func() {
		a()
		done <- true
	}()
	b()
	<-done
}

// apart has f look at a slice, of which others change elements meanwhile that f doesn't come to.
func apart(f func([]byte), changed ...int) {
	t := text()
	both(func() { f(t) }, func() {
		for _, i := range changed {
			t[i] = 'x'
		}
	})
}

func isComma(r rune) bool { return r == ',' }

// What functions of the standard library don't read of slices.
func main() {
	apart(func(t []byte) { bytes.HasPrefix(t, short) }, 2, 12)
	apart(func(t []byte) { bytes.HasPrefix(t, long) }, 0, 1)
	apart(func(t []byte) { bytes.HasPrefix(t, []byte("b")) }, 1)
	apart(func(t []byte) { bytes.TrimPrefix(t, short) }, 2)
	apart(func(t []byte) { bytes.HasSuffix(t, short) }, 0, 10)
	apart(func(t []byte) { bytes.TrimSuffix(t, long) }, 12)
	apart(func(t []byte) { hmac.Equal(t, short) }, 0)
	apart(func(t []byte) { bytes.Compare(t, short) }, 2)
	apart(func(t []byte) { bytes.IndexByte(t, 'b') }, 2, 12)
	apart(func(t []byte) { bytes.IndexAny(t, "") }, 0)
	apart(func(t []byte) { bytes.IndexRune(t, 'c') }, 3)
	apart(func(t []byte) { bytes.IndexFunc(t, isComma) }, 4)
	apart(func(t []byte) { bytes.ContainsAny(t, ",") }, 4)
	apart(func(t []byte) { bytes.ContainsRune(t, ',') }, 4)
	apart(func(t []byte) { bytes.LastIndexByte(t, ',') }, 7)
	apart(func(t []byte) { bytes.LastIndexAny(t, ",") }, 7)
	apart(func(t []byte) { bytes.LastIndexFunc(t, isComma) }, 7)
	apart(func(t []byte) { bytes.Index(t, []byte("c,")) }, 4)
	apart(func(t []byte) { bytes.Index(t, long) }, 4)
	apart(func(t []byte) { bytes.Contains(t, []byte("bc")) }, 4)
	apart(func(t []byte) { bytes.LastIndex(t, []byte("ab")) }, 9)
	apart(func(t []byte) { bytes.Cut(t, []byte(", ")) }, 5)
	apart(func(t []byte) { bytes.SplitN(t, []byte(", "), 2) }, 5)
	apart(func(t []byte) { bytes.TrimSpace(t) }, 1, 11)
	apart(func(t []byte) { bytes.Trim(t, "a") }, 2, 11)
	apart(func(t []byte) { bytes.TrimLeft(t, "a") }, 2, 12)
	apart(func(t []byte) { bytes.TrimRightFunc(t, unicode.IsLetter) }, 7)
	apart(func(t []byte) { utf8.FullRune(t) }, 1)
	apart(func(t []byte) { utf8.Valid(append([]byte("\xff"), t[:1]...)) }, 1)
	apart(func(t []byte) { bytes.Replace(text(), short, t, 0) }, 0)
	apart(func(t []byte) { bytes.ReplaceAll(short, []byte("x"), t) }, 0)
	apart(func(t []byte) { bytes.ReplaceAll(short, t, nil) }, 0)
	apart(func(t []byte) { bytes.Join([][]byte{short}, t) }, 0)
	apart(func(t []byte) { bytes.NewReader(nil).Reset(t) }, 0)
	apart(func(t []byte) { io.CopyBuffer(io.Discard, strings.NewReader("abc"), t) }, 0)
}
