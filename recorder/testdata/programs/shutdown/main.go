// clean

package main

import (
	"context"
	"fmt"
	"io"
	"net"
	"net/http"
	"runtime"
	"time"
)

func main() {
	listener, err := net.Listen("tcp", "127.0.0.1:0")
	if err != nil {
		panic(err)
	}
	served := 0
	server := &http.Server{Handler: http.HandlerFunc(func(w http.ResponseWriter, r *http.Request) {
		served++
		io.WriteString(w, "hello")
	})}
	go server.Serve(listener)
	go func() {
		response, err := http.Get("http://" + listener.Addr().String())
		if err != nil {
			panic(err)
		}
		io.Copy(io.Discard, response.Body)
		response.Body.Close()
		if served != 1 {
			panic(served)
		}
		http.DefaultClient.CloseIdleConnections()
	}()
	time.Sleep(50 * time.Millisecond) // the client has its answer, and is no longer there
	for i := 0; i < 3; i++ {
		runtime.GC() // nor is who served it
		time.Sleep(time.Millisecond)
	}
	if err := server.Shutdown(context.Background()); err != nil {
		panic(err)
	}
	fmt.Println(served)
}
