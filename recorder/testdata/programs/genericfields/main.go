// races: Box_Items, Box_Index, Box_Pair_a; perhaps: Box_Pair_b
// why: words of a value that are always read and written together are one variable, which has the name of the first

package main

import "fmt"

// Box has fields of types that are made of its parameter.
type Box[T any] struct {
	Items []T
	Index map[string]T
	Array [2]T
	Pair  struct{ a, b T }
	Each  func(T)
	News  chan T
	Next  *T
}

// Short methods, which Go 1.19 exports whole where an exported function names a Box[error].

func (b *Box[T]) Len() int { return len(b.Items) }

func (b *Box[T]) All() []T { return b.Items }

func (b *Box[T]) At(i int) *T { return &b.Items[i] }

func (b *Box[T]) From(i int) []T { return b.Items[i:] }

func (b *Box[T]) Sized() map[string]T { return b.Index }

func (b *Box[T]) Both() [2]T { return b.Array }

func (b *Box[T]) Copied() struct{ a, b T } { return b.Pair }

func (b *Box[T]) Swap(p struct{ a, b T }) { b.Pair = p }

func (b *Box[T]) Do() func(T) { return b.Each }

func (b *Box[T]) Made() chan T { return make(chan T) }

func (b *Box[T]) Told() chan T { return b.News }

func (b *Box[T]) Following() *T { return b.Next }

func (b *Box[T]) Value() []T { return Box[T].items(*b) }

func (b Box[T]) items() []T { return b.Items }

// Count isn't a method.
func Count[T any](b *Box[T]) int { return len(b.Items) }

// Same names the type, as NewErrors does.
func Same(b *Box[error]) *Box[error] { return b }

func NewErrors() *Box[error] { return &Box[error]{} }

func Counted(b *Box[error]) int { return Count(b) }

// What isn't generic uses types of its own.

var errs []error

var named map[string]error

func Add(err error) { errs = append(errs, err) }

func AddAll(more []error) { errs = append(errs, more...) }

func Name(err error) { named["a"] = err }

func Two(a, b error) { errs[0], errs[1] = a, b }

func Three(a, b error) { errs[0], errs[1], named["b"] = a, b, nil }

func main() {
	b := Same(NewErrors())
	done := make(chan bool)
	go func() {
		b.Items = append(b.Items, nil)
		b.Index = nil
		b.Swap(struct{ a, b error }{})
		done <- true
	}()
	fmt.Println(b.Len(), b.Sized(), b.Copied())
	<-done
	errs, named = []error{nil, nil}, map[string]error{}
	Two(nil, nil)
	Add(nil)
	AddAll(errs)
	Name(nil)
	Three(nil, nil)
	fmt.Println(*b.At(0), b.All(), len(b.From(1)), b.Both(), b.Do() == nil, b.Told(), b.Following(), b.Value(), Counted(b), b.Made() != nil, len(errs))
}
