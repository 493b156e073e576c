// clean

package main

import (
	"fmt"
	"io"
	"net/http"
	"net/http/httptest"
	"strings"
)

// What a handler did before it answered, or began to, comes before what the client does next.
func main() {
	first, later := 0, 0
	read := make(chan bool)
	handlers := http.NewServeMux()
	handlers.HandleFunc("/plain", func(w http.ResponseWriter, r *http.Request) { first++ })
	handlers.HandleFunc("/big", func(w http.ResponseWriter, r *http.Request) {
		later++
		io.WriteString(w, strings.Repeat("big ", 5000))
		w.(http.Flusher).Flush()
		<-read // the client has begun to read
	})
	server := httptest.NewServer(handlers)
	http.Get(server.URL + "/plain")
	fmt.Println(first)
	response, err := http.Get(server.URL + "/big")
	if err != nil {
		panic(err)
	}
	io.ReadFull(response.Body, make([]byte, 4))
	fmt.Println(later)
	read <- true
	io.Copy(io.Discard, response.Body)
	response.Body.Close()
	server.Close()
}
