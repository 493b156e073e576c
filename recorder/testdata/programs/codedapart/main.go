// clean

package main

import (
	"crypto/aes"
	"crypto/cipher"
	"crypto/sha256"
	"encoding/binary"
	"fmt"
	"unicode/utf8"
)

// both does a in another goroutine, and b meanwhile.
func both(a, b func()) {
	done := make(chan bool)
	go func() {
		a()
		done <- true
	}()
	b()
	<-done
}

// apart has f code a slice, of which others change the last element meanwhile.
func apart(f func([]byte)) {
	b := make([]byte, 64)
	both(func() { f(b) }, func() { b[63] = 1 })
}

// What functions of the standard library that append, code and encrypt don't read or write.
func main() {
	c, err := aes.NewCipher(make([]byte, 16))
	if err != nil {
		panic(err)
	}
	apart(func(b []byte) { binary.BigEndian.Uint32(b) })
	apart(func(b []byte) { binary.ByteOrder(binary.LittleEndian).Uint64(b) })
	apart(func(b []byte) { binary.BigEndian.PutUint32(b, 1) })
	apart(func(b []byte) { binary.PutVarint(b, 1) })
	apart(func(b []byte) { binary.Varint(b) })
	apart(func(b []byte) { binary.LittleEndian.AppendUint16(b[:0], 1) })
	apart(func(b []byte) { utf8.EncodeRune(b, 'é') })
	apart(func(b []byte) { fmt.Append(b[:0], 1) })
	apart(func(b []byte) { sha256.New().Sum(b[:0]) })
	apart(func(b []byte) { cipher.NewCTR(c, make([]byte, 16)).XORKeyStream(b, make([]byte, 32)) })
	apart(func(b []byte) { c.Encrypt(b, make([]byte, 16)) })
	apart(func(b []byte) { c.Encrypt(make([]byte, 16), b) })
}
