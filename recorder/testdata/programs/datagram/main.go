// clean

package main

import (
	"fmt"
	"net"
)

var x int

// What comes before a datagram comes before who gets it on the same connection.
func main() {
	c, err := net.ListenUDP("udp4", &net.UDPAddr{IP: net.IPv4(127, 0, 0, 1)})
	if err != nil {
		panic(err)
	}
	done := make(chan int)
	go func() {
		b := make([]byte, 10)
		c.ReadFromUDP(b)
		done <- x
	}()
	x = 1
	c.WriteTo([]byte("a"), c.LocalAddr())
	fmt.Println(<-done)
}
