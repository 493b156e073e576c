// races: total

package main

import (
	"fmt"
	"net/http"
	"net/http/httptest"
	"time"
)

// An answer of the server says nothing of a handler that still runs.
func main() {
	total := 0
	began, end := make(chan bool, 1), make(chan bool)
	handlers := http.NewServeMux()
	handlers.HandleFunc("/slow", func(w http.ResponseWriter, r *http.Request) {
		total++
		time.Sleep(50 * time.Millisecond)
		<-end
	})
	handlers.HandleFunc("/fast", func(w http.ResponseWriter, r *http.Request) {})
	server := httptest.NewServer(handlers)
	go func() {
		began <- true
		http.Get(server.URL + "/slow")
		end <- true
	}()
	<-began
	time.Sleep(30 * time.Millisecond)
	http.Get(server.URL + "/fast")
	fmt.Println(total >= 0)
	end <- true
	<-end
	server.Close()
}
