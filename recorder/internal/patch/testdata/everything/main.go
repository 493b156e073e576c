//go:build tagged && race

// Program everything does a bit of everything that gorec patches, and says where it is.
package main

import (
	"fmt"
	"path/filepath"
	"runtime"
	"sync"
	"sync/atomic"
	"time"
)

func main() {
	channels()
	locks()
	waits()
	nils()
	_, file, line, _ := runtime.Caller(0)
	fmt.Printf("%s %s %s:%d\n", runtime.GOROOT(), runtime.Version(), filepath.Base(file), line)
}

func channels() {
	unbuffered, buffered, done := make(chan int), make(chan string, 2), make(chan struct{})
	go func() {
		for i := range unbuffered {
			select {
			case buffered <- fmt.Sprint(i):
			case <-buffered:
			}
		}
		close(done)
	}()
	for i := 0; i < 100; i++ {
		select {
		case unbuffered <- i:
		case <-time.After(time.Hour):
		}
		select {
		case <-done:
		default:
		}
	}
	close(unbuffered)
	select {
	case <-done:
	case <-time.After(time.Minute):
		panic("the receiver doesn't end")
	}
	timer := time.NewTimer(time.Microsecond)
	time.Sleep(time.Millisecond)
	timer.Reset(time.Microsecond)
	timer.Stop()
}

func locks() {
	var (
		mutex sync.Mutex
		both  sync.RWMutex
		once  sync.Once
		group sync.WaitGroup
		count int64
	)
	counts := map[string]int{}
	for i := 0; i < 4; i++ {
		group.Add(1)
		go func() {
			defer group.Done()
			once.Do(func() { counts["once"]++ })
			for i := 0; i < 100; i++ {
				mutex.Lock()
				counts[fmt.Sprint(i)]++
				mutex.Unlock()
				if mutex.TryLock() {
					mutex.Unlock()
				}
				both.RLock()
				both.RUnlock()
				both.Lock()
				both.Unlock()
				if both.TryRLock() {
					both.RUnlock()
				}
				if both.TryLock() {
					both.Unlock()
				}
				atomic.AddInt64(&count, 1)
			}
		}()
	}
	group.Wait()
	if atomic.LoadInt64(&count) != 400 || counts["7"] != 4 || counts["once"] != 1 {
		panic(fmt.Sprint(count, counts))
	}
}

// nils: a lock that is nil panics as any nil pointer does.
func nils() {
	var (
		mutex *sync.Mutex
		both  *sync.RWMutex
		once  *sync.Once
		count *int64
	)
	for i, f := range []func(){
		mutex.Lock, mutex.Unlock, both.Lock, both.RLock, both.RUnlock, both.Unlock,
		func() { mutex.TryLock() }, func() { both.TryRLock() }, func() { once.Do(nils) },
		func() { atomic.AddInt64(count, 1) },
	} {
		func() {
			defer func() {
				if _, ok := recover().(runtime.Error); !ok {
					panic(fmt.Sprint("no error of a nil pointer in ", i))
				}
			}()
			f()
		}()
	}
}

func waits() {
	var mutex sync.Mutex
	changed := sync.NewCond(&mutex)
	n := 0
	for i := 0; i < 3; i++ {
		go func() {
			mutex.Lock()
			n++
			mutex.Unlock()
			changed.Signal()
			changed.Broadcast()
		}()
	}
	mutex.Lock()
	for n < 3 {
		changed.Wait()
	}
	mutex.Unlock()
}
