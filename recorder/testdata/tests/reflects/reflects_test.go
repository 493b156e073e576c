// clean

// Package reflects has channels that reflect makes, sends to and receives from.
package reflects

import (
	"reflect"
	"testing"
)

func TestMade(t *testing.T) {
	c := reflect.MakeChan(reflect.TypeOf((chan int)(nil)), 0)
	n := 0
	go func() { n = 1; c.Send(reflect.ValueOf(1)) }()
	c.Recv()
	if n != 1 {
		t.Fatal(n)
	}
}

func TestSend(t *testing.T) {
	c, back := make(chan int), make(chan string, 1)
	n := 0
	go func() {
		n++
		reflect.ValueOf(c).Send(reflect.ValueOf(1))
		reflect.ValueOf(back).Recv()
		n++
		reflect.ValueOf(back).TrySend(reflect.ValueOf("again"))
	}()
	if <-c; n != 1 {
		t.Error(n)
	}
	n++
	back <- "there"
	for v, ok := reflect.ValueOf(back).TryRecv(); !ok || v.String() != "again"; v, ok = reflect.ValueOf(back).TryRecv() {
		if ok {
			back <- v.String()
		}
	}
	if n != 3 {
		t.Error(n)
	}
}

func TestSelect(t *testing.T) {
	c, quit := make(chan int), make(chan bool)
	n := 0
	go func() {
		n = 1
		close(quit)
	}()
	cases := []reflect.SelectCase{
		{Dir: reflect.SelectRecv, Chan: reflect.ValueOf(c)}, {Dir: reflect.SelectRecv, Chan: reflect.ValueOf(quit)},
	}
	if i, _, ok := reflect.Select(cases); i != 1 || ok || n != 1 {
		t.Error(i, ok, n)
	}
}
