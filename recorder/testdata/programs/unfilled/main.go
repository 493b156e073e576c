// races: options_Flags_elem
// why: Unmarshal also sets the elements of an array that have the value already

package main

import (
	"encoding/json"
	"fmt"
	"strings"
	"time"
)

type options struct {
	Port  int
	Host  string
	Flags [4]byte
	Next  *options
	Names []string
	Tags  map[string]int
}

type level struct{ name string }

var levels = map[string]*level{"low": {"low"}, "high": {"high"}}

// leading comes to what is there.
type leading struct{ level *level }

func (l *leading) UnmarshalText(name []byte) error {
	l.level = levels[string(name)]
	return nil
}

var (
	late options
	set  = options{Port: 80, Flags: [4]byte{1, 2, 3, 4}, Next: &options{Port: 81}, Names: []string{"a"}, Tags: map[string]int{"a": 1}}
)

// What a decoder doesn't set it doesn't write, whoever used it before.
func main() {
	fmt.Sscan("80", &late.Port)
	done, kinds := make(chan error), [2]leading{}
	go func() {
		done <- json.Unmarshal([]byte(`{"Host": "h", "Next": {"Host": "i"}, "Flags": [1, 2, 3, 9]}`), &set)
	}()
	go func() { done <- json.NewDecoder(strings.NewReader(`{"Host": "h"}`)).Decode(&late) }()
	for i := range kinds {
		i := i
		go func() { done <- json.Unmarshal([]byte(`"low"`), &kinds[i]) }()
	}
	time.Sleep(10 * time.Millisecond)
	sum := set.Port + int(set.Flags[0]) + set.Next.Port + len(set.Names[0]) + set.Tags["a"] + late.Port + len(levels["low"].name)
	for range "four" {
		<-done
	}
	fmt.Println(sum, set.Host, late.Host, kinds[1].level.name)
}
