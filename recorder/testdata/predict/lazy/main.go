// hides: conf, s

// What is made when it is needed first has no lock; the lock of the log orders the two.
package main

import (
	"sync"

	"example.com/predict/side"
)

var (
	logging sync.Mutex
	lines   [2]string
	conf    *string
)

func log(i int, line string) {
	logging.Lock()
	lines[i] = line
	logging.Unlock()
}

func get() string {
	if conf == nil {
		s := "set"
		conf = &s
	}
	return *conf
}

func main() {
	side.OneByOne(func() {
		get()
		log(0, "got")
	}, func() {
		log(1, "begins")
		get()
	})
}
