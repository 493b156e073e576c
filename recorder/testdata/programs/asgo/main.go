// clean

package main

import (
	"errors"
	"math"
)

var (
	failure error
	sum     int
	key     int
	cells   [3]int
)

func recovered() {
	defer func() {
		ok := false
		func() { ok = !ok }()
		failure, ok = recover().(error)
	}()
	panic(errors.New("failed"))
}

func forever() int { select {} }

// main does with the recorder's calls what it does without.
func main() {
	go forever()
	recovered()
	m := map[float64]int{math.NaN(): 1, 2: 2}
	for _, v := range m {
		sum += v
	}
	for key, cells[key] = range []int{4, 5, 6} {
	}
	many := map[int]bool{}
	for i := 0; i < 20000; i++ {
		many[i] = true
	}
	for len(many) > 0 {
		for k := range many { // no more than a step of the loop
			delete(many, k)
			break
		}
	}
	directed := make(chan<- int, 1)
	directed <- 1
	if failure.Error() != "failed" || sum != 3 || key != 2 || cells != [3]int{5, 6, 0} || len(directed) != 1 {
		panic("not as without the recorder")
	}
}
