// races: late, apart

package main

import (
	"bufio"
	"bytes"
	"encoding/json"
	"fmt"
	"io"
	"os"
	"strings"
)

var ways = []struct {
	write func(*os.File)
	read  func(*os.File)
}{
	{func(w *os.File) { fmt.Fprintln(w, "a") }, func(r *os.File) { bufio.NewScanner(r).Scan() }},
	{func(w *os.File) { io.WriteString(w, "a\n") }, func(r *os.File) { bufio.NewReader(r).ReadString('\n') }},
	{func(w *os.File) { io.Copy(w, strings.NewReader("a")); w.Close() }, func(r *os.File) { io.Copy(new(bytes.Buffer), r) }},
	{func(w *os.File) { json.NewEncoder(w).Encode(1) }, func(r *os.File) { var n int; json.NewDecoder(r).Decode(&n) }},
	{flush, func(r *os.File) { var s string; fmt.Fscan(r, &s) }},
	{func(w *os.File) { var o io.Writer = w; o.Write([]byte("a")) }, func(r *os.File) { r.Read(make([]byte, 1)) }},
}

func flush(w *os.File) {
	b := bufio.NewWriter(w)
	b.WriteString(fmt.Sprintln("a"))
	b.Flush()
}

var sent [6]int
var late, apart int

func main() {
	for i := range ways {
		r, w, _ := os.Pipe()
		go func(i int) {
			sent[i]++
			ways[i].write(w)
			late++
		}(i)
		ways[i].read(r)
		sent[i]++
	}
	late++
	memory()
}

// memory: what stays in memory orders nothing.
func memory() {
	done := make(chan int)
	for i := 0; i < 2; i++ {
		go func() {
			apart++
			json.NewEncoder(new(bytes.Buffer)).Encode(1)
			bufio.NewScanner(strings.NewReader("a")).Scan()
			done <- 1
		}()
	}
	<-done
	<-done
}
