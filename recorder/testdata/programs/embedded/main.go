// races: s_base|outer_base, p_elem|cells_elem; perhaps: base_n

package main

type base struct{ n int }

type outer struct{ *base }

func main() {
	s := &outer{&base{1}}
	cells := [4]int{}
	p := &cells
	done := make(chan bool)
	go func() {
		s.base = &base{2}
		cells[3] = 1
		done <- true
	}()
	n := s.n // reads s.base
	for _, v := range p {
		n += v
	}
	<-done
}
