// clean

// Package locks has correct programs, whose locks are embedded, or behind interfaces or reflect.
package locks

import (
	"os"
	"path/filepath"
	"reflect"
	"sync"
	"testing"
	"time"
)

func both(fs ...func()) {
	var wg sync.WaitGroup
	for _, f := range fs {
		f := f
		wg.Add(1)
		go func() { defer wg.Done(); f() }()
	}
	wg.Wait()
}

type locker interface {
	Lock()
	Unlock()
}
type rw interface {
	Lock()
	Unlock()
	RLock()
	RUnlock()
}
type rlocker interface {
	RLock()
	RUnlock()
}
type storeRW struct {
	sync.RWMutex
	n int
}
type storeM struct {
	sync.Mutex
	n int
}
type storeP struct {
	*sync.RWMutex
	n int
}

// embedded Mutex, own interface of Lock and Unlock alone
func TestA(t *testing.T) {
	s := &storeM{}
	var l locker = s
	both(func() { l.Lock(); s.n++; l.Unlock() }, func() { s.Lock(); s.n++; s.Unlock() })
}

// embedded RWMutex, own interface of Lock and Unlock alone
func TestB(t *testing.T) {
	s := &storeRW{}
	var l locker = s
	both(func() { l.Lock(); s.n++; l.Unlock() }, func() { s.Lock(); s.n++; s.Unlock() })
}

// embedded RWMutex, interface of all four
func TestC(t *testing.T) {
	s := &storeRW{}
	var l rw = s
	both(func() { l.Lock(); s.n++; l.Unlock() }, func() { s.Lock(); s.n++; s.Unlock() })
}

// embedded RWMutex, all four, both by the interface
func TestD(t *testing.T) {
	s := &storeRW{}
	var l rw = s
	both(func() { l.Lock(); s.n++; l.Unlock() }, func() { l.RLock(); _ = s.n; l.RUnlock() })
}

// embedded RWMutex, RLock alone
func TestE(t *testing.T) {
	s := &storeRW{}
	var l rlocker = s
	both(func() { s.Lock(); s.n++; s.Unlock() }, func() { l.RLock(); _ = s.n; l.RUnlock() })
}

// embedded pointer
func TestF(t *testing.T) {
	s := &storeP{RWMutex: new(sync.RWMutex)}
	var l locker = s
	both(func() { l.Lock(); s.n++; l.Unlock() }, func() { s.Lock(); s.n++; s.Unlock() })
}

// plain RWMutex behind the interface of four
func TestG(t *testing.T) {
	mu := &sync.RWMutex{}
	n := 0
	var l rw = mu
	both(func() { l.Lock(); n++; l.Unlock() }, func() { mu.RLock(); _ = n; mu.RUnlock() })
}

// plain RWMutex behind the interface of RLock
func TestH(t *testing.T) {
	mu := &sync.RWMutex{}
	n := 0
	var l rlocker = mu
	both(func() { mu.Lock(); n++; mu.Unlock() }, func() { l.RLock(); _ = n; l.RUnlock() })
}

// sync.Locker over an embedded RWMutex
func TestI(t *testing.T) {
	s := &storeRW{}
	var l sync.Locker = s
	both(func() { l.Lock(); s.n++; l.Unlock() }, func() { s.Lock(); s.n++; s.Unlock() })
}

// sync.Cond whose L is a struct with an embedded Mutex
func TestJ(t *testing.T) {
	s := &storeM{}
	c := sync.NewCond(s)
	go func() { s.Lock(); s.n = 1; s.Unlock(); c.Broadcast() }()
	c.L.Lock()
	for s.n == 0 {
		c.Wait()
	}
	c.L.Unlock()
}

// files by os.WriteFile and os.ReadFile
func TestK(t *testing.T) {
	p := filepath.Join(t.TempDir(), "x")
	n := 0
	go func() { n = 1; os.WriteFile(p, []byte("x"), 0o600) }()
	for {
		if b, err := os.ReadFile(p); err == nil && len(b) == 1 {
			break
		}
		time.Sleep(time.Millisecond)
	}
	_ = n
}

// files by os.Create, Write, Open, Read
func TestL(t *testing.T) {
	p := filepath.Join(t.TempDir(), "x")
	n := 0
	go func() { n = 1; f, _ := os.Create(p); f.Write([]byte("x")); f.Close() }()
	for {
		if f, err := os.Open(p); err == nil {
			k, _ := f.Read(make([]byte, 1))
			f.Close()
			if k == 1 {
				break
			}
		}
		time.Sleep(time.Millisecond)
	}
	_ = n
}

// a method found by reflect
func TestM(t *testing.T) {
	var mu sync.Mutex
	lock, unlock := reflect.ValueOf(&mu).MethodByName("Lock"), reflect.ValueOf(&mu).MethodByName("Unlock")
	n := 0
	both(func() { lock.Call(nil); n++; unlock.Call(nil) }, func() { mu.Lock(); n++; mu.Unlock() })
}

// A lock is released by a Once, so that it is released once only.
func TestOnceUnlock(t *testing.T) {
	var mu sync.Mutex
	n := 0
	var wg sync.WaitGroup
	for i := 0; i < 4; i++ {
		wg.Add(1)
		go func() {
			defer wg.Done()
			var once sync.Once
			mu.Lock()
			defer once.Do(mu.Unlock)
			n++
		}()
	}
	wg.Wait()
	if n != 4 {
		t.Fatal(n)
	}
}

// The lock is taken by a Once.
func TestOnceLock(t *testing.T) {
	var mu sync.Mutex
	n := 0
	var wg sync.WaitGroup
	for i := 0; i < 4; i++ {
		wg.Add(1)
		go func() {
			defer wg.Done()
			var once sync.Once
			once.Do(mu.Lock)
			n++
			mu.Unlock()
		}()
	}
	wg.Wait()
}
