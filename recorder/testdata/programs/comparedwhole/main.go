// races: t_elem
// why: Equal counts as a read of all bytes, though lengths or earlier bytes differ, as with Go's own detector

package main

import "bytes"

// both does a in another goroutine, and b meanwhile.
func both(a, b func()) {
	done := make(chan bool)
	go func() {
		a()
		done <- true
	}()
	b()
	<-done
}

func main() {
	t := []byte("abc, def, abc")
	both(func() { bytes.Equal(t, []byte("ab")) }, func() { t[0] = 'x' })
	both(func() { bytes.Equal(t, []byte("abd, def, abc")) }, func() { t[3] = 'x' })
}
