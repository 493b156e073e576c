// clean

package main

import (
	"fmt"
	"sync"
)

var (
	once sync.Once
	conf map[string]string
)

func load() { conf = map[string]string{"host": "localhost"} }

func get(k string) string {
	once.Do(load)
	return conf[k]
}

func main() {
	var wg sync.WaitGroup
	for i := 0; i < 5; i++ {
		wg.Add(1)
		go func() {
			defer wg.Done()
			get("host")
		}()
	}
	wg.Wait()
	fmt.Println(get("host"))
}
