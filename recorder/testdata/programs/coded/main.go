// races: sorting_elem, words_elem, sorted|sorted_elem, appended_elem, printed_elem, formatted_elem, note_A|shown, drawn_elem, read_elem, header_A|h, written_A|w, put_elem, put2_elem, varint_elem, got|got_elem, got2|got2_elem, began_elem, grown_elem, grown2_elem, rune_elem, summed_elem; perhaps: stream_elem, plain_elem, block_elem
// why: what assembly writes, as that of AES, isn't recorded

package main

import (
	"bytes"
	"crypto/aes"
	"crypto/cipher"
	"crypto/sha256"
	"encoding/binary"
	"fmt"
	"io"
	"math/rand"
	"sort"
	"strings"
	"unicode/utf8"
)

type header struct{ A, B uint32 }

type note struct{ A, B uint32 }

type written struct{ A, B uint32 }

var (
	sorting, sorted                      = []int{3, 2, 1}, []int{2, 1, 3}
	words                                = []string{"b", "a"}
	appended, printed, formatted         = make([]byte, 8), make([]byte, 8), make([]byte, 8)
	shown                                = &note{1, 2}
	drawn, read                          = make([]byte, 64), make([]byte, 8)
	h, w                                 = &header{}, &written{}
	put, put2, varint, got, got2, began  = make([]byte, 8), make([]byte, 8), make([]byte, 8), make([]byte, 8), make([]byte, 8), make([]byte, 8)
	grown, grown2, rune1, summed, stream = make([]byte, 16), make([]byte, 16), make([]byte, 8), make([]byte, 64), make([]byte, 8)
	plain, block                         = make([]byte, 8), make([]byte, 16)
)

// both does a in another goroutine, and b meanwhile.
func both(a, b func()) {
	done := make(chan bool)
	go func() {
		a()
		done <- true
	}()
	b()
	<-done
}

// What functions of the standard library that sort, append, code and encrypt read and write.
func main() {
	rune, order := rune1, binary.ByteOrder(binary.BigEndian)
	both(func() { sort.IntSlice(sorting).Sort() }, func() { println(sorting[0]) })
	both(func() { sort.StringSlice(words).Sort() }, func() { println(words[0]) })
	both(func() { sort.Ints(sorted) }, func() { println(sorted[1]) })
	both(func() { fmt.Append(appended[:0], 12) }, func() { println(appended[1]) })
	both(func() { fmt.Appendln(printed[:0], 12) }, func() { println(printed[1]) })
	both(func() { fmt.Appendf(formatted[:0], "%d", 12) }, func() { println(formatted[1]) })
	both(func() { fmt.Append(nil, shown) }, func() { shown.A = 1 })
	both(func() { rand.Read(drawn) }, func() { println(drawn[63]) })
	both(func() { io.ReadAtLeast(strings.NewReader("abc"), read, 2) }, func() { println(read[2]) })
	both(func() { binary.Read(strings.NewReader("abcdefgh"), binary.BigEndian, h) }, func() { println(h.A) })
	both(func() { binary.Write(io.Discard, binary.BigEndian, w) }, func() { w.A = 0 })
	both(func() { binary.BigEndian.PutUint32(put, 1) }, func() { println(put[3]) })
	both(func() { order.PutUint16(put2, 1) }, func() { println(put2[1]) })
	both(func() { binary.PutUvarint(varint, 300) }, func() { println(varint[1]) })
	both(func() { binary.LittleEndian.Uint64(got) }, func() { got[7] = 0 })
	both(func() { order.Uint16(got2) }, func() { got2[1] = 0 })
	both(func() { binary.Uvarint(began) }, func() { began[0] = 0 })
	both(func() { _ = binary.BigEndian.AppendUint32(grown[:4], 1) }, func() { println(grown[7]) })
	both(func() { binary.AppendUvarint(grown2[:4], 300) }, func() { println(grown2[5]) })
	both(func() { utf8.EncodeRune(rune, 'é') }, func() { println(rune[1]) })
	both(func() { sha256.New().Sum(summed[:1]) }, func() { println(summed[32]) })
	encrypt()
}

func encrypt() {
	c, err := aes.NewCipher(make([]byte, 16))
	if err != nil {
		panic(err)
	}
	both(func() { cipher.NewCTR(c, make([]byte, 16)).XORKeyStream(stream, plain) }, func() { println(stream[7]) })
	both(func() { cipher.NewCTR(c, make([]byte, 16)).XORKeyStream(make([]byte, 8), plain) }, func() { plain[7] = 0 })
	both(func() { c.Encrypt(block, make([]byte, 16)) }, func() { println(block[7]) })
	fmt.Println(bytes.Count(block, nil))
}
