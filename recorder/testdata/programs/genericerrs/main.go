// races: total

package main

import (
	"errors"
	"fmt"
)

type failure struct{ code int }

func (f *failure) Error() string { return fmt.Sprint(f.code) }

func (f *failure) String() string { return f.Error() }

type result[T any] struct {
	value T
	err   error
}

var total int

// pool has channels of types with and without its parameter.
type pool[T any] struct {
	jobs    chan T
	errs    chan error
	all     chan any
	names   chan fmt.Stringer
	results chan result[T]
	lists   chan []error
}

func newPool[T any]() *pool[T] {
	p := &pool[T]{jobs: make(chan T, 1), errs: make(chan error, 2), all: make(chan any, 2)}
	p.names, p.results, p.lists = make(chan fmt.Stringer), make(chan result[T], 1), make(chan []error, 1)
	return p
}

func (p *pool[T]) send(v T) {
	total++
	p.jobs <- v
	p.errs <- nil
	p.errs <- &failure{1}
	p.all <- v
	p.all <- 1
	p.results <- result[T]{v, errors.New("none")}
	p.lists <- []error{nil}
	p.names <- &failure{2}
}

func (p *pool[T]) receive() error {
	total++
	<-p.jobs
	err, ok := <-p.errs
	if err != nil || !ok || (<-p.errs).Error() != "1" {
		panic("errs")
	}
	fmt.Println(<-p.all, <-p.all, <-p.results, <-p.lists)
	for s := range p.names {
		fmt.Println(s)
		break
	}
	return p.choose(*new(T))
}

// choose does what is possible, which is a send alone, until nothing is.
func (p *pool[T]) choose(v T) (err error) {
	for i := 0; ; i++ {
		select {
		case p.jobs <- v:
		case p.errs <- &failure{3}:
		case p.all <- v:
		case p.results <- result[T]{v, nil}:
		case p.lists <- nil:
		case p.names <- &failure{4}:
			panic("names")
		default:
			fmt.Println(i)
			select {
			case err, _ = <-p.errs:
			case s := <-p.names:
				panic(s)
			}
			return err
		}
	}
}

// Done has a capital letter, as others have, since Go 1.19 fails only at what it exports.
func Done[T any](v T, c chan<- error) { c <- nil }

func Wait[T any](c <-chan T) T { return <-c }

func Try[T any](c chan error, v T) (err error) {
	select {
	case c <- nil:
	default:
	}
	select {
	case err = <-c:
	default:
	}
	return err
}

func Run[T any](v T) error {
	p := newPool[T]()
	ended := make(chan error)
	go func() {
		p.send(v)
		Done(v, ended)
	}()
	err := p.receive()
	Wait(ended)
	return err
}

func main() {
	fmt.Println(Run(1), Run("a"), Run[error](nil), Run[fmt.Stringer](&failure{5}), Try(make(chan error, 1), 1))
}
