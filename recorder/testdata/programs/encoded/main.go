// races: titles_Title, sizes_Sizes_elem, inner_Deep

package main

import (
	"encoding/json"
	"fmt"
	"time"
)

type titles struct {
	Title string
	words int
}

type sizes struct{ Sizes [2]int }

type inner struct{ Deep int }

type leads struct{ In *inner }

// A coder reads all exported fields, wherever they stand.
func main() {
	titled, sized, leading := &titles{}, &sizes{}, &leads{&inner{}}
	done := make(chan bool)
	go func() {
		time.Sleep(10 * time.Millisecond)
		titled.Title = "home"
		titled.words = 3
		sized.Sizes[0] = 1
		leading.In.Deep = 2
		done <- true
	}()
	for _, show := range []func() ([]byte, error){
		func() ([]byte, error) { return json.Marshal(titled) },
		func() ([]byte, error) { return json.Marshal(sized) },
		func() ([]byte, error) { return json.Marshal(leading) },
	} {
		if _, err := show(); err != nil {
			fmt.Println(err)
		}
	}
	<-done
}
