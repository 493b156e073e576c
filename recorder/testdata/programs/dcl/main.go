// races: cfg; perhaps: Config_name

package main

import (
	"fmt"
	"sync"
)

type Config struct{ name string }

var (
	mu  sync.Mutex
	cfg *Config
)

func get() *Config {
	if cfg == nil {
		mu.Lock()
		defer mu.Unlock()
		if cfg == nil {
			cfg = &Config{name: "prod"}
		}
	}
	return cfg
}

func main() {
	var wg sync.WaitGroup
	for i := 0; i < 4; i++ {
		wg.Add(1)
		go func() {
			defer wg.Done()
			_ = get().name
		}()
	}
	wg.Wait()
	fmt.Println(get().name)
}
