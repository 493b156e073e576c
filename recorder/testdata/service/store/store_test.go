package store_test

import (
	"testing"

	"example.com/service/store"
)

func TestSell(t *testing.T) {
	var s store.Store
	done := make(chan bool)
	for i := 0; i < 2; i++ {
		go func() {
			s.Sell(3)
			done <- true
		}()
	}
	<-done
	<-done
}
