// clean

package main

import (
	"fmt"
	"io"
	"net/http"
	"net/http/httptest"
)

// A handler has another goroutine answer, and goes on behind the answer.
func main() {
	x, next := 0, make(chan bool)
	server := httptest.NewServer(http.HandlerFunc(func(w http.ResponseWriter, r *http.Request) {
		x++
		done := make(chan bool)
		go func() {
			fmt.Fprintln(w, "hello")
			w.(http.Flusher).Flush()
			<-next
			close(done)
		}()
		<-done
	}))
	defer server.Close()
	answer, err := http.Get(server.URL)
	if err != nil {
		panic(err)
	}
	line := make([]byte, 6)
	if _, err := io.ReadFull(answer.Body, line); err != nil {
		panic(err)
	}
	fmt.Println(string(line), x)
	close(next)
	if err := answer.Body.Close(); err != nil {
		panic(err)
	}
}
