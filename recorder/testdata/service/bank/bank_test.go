package bank

import (
	"flag"
	"os"
	"path/filepath"
	"runtime"
	"sync"
	"testing"
)

var own = flag.Int("own", 0, "a flag of the tests")

func TestPay(t *testing.T) {
	var a Account
	var wg sync.WaitGroup
	for i := 0; i < 3; i++ {
		wg.Add(1)
		go func() {
			a.Pay(1)
			wg.Done()
		}()
	}
	wg.Wait()
	if a.Balance() != 3 {
		t.Error(a.Balance())
	}
}

// TestBeside finds its files as many tests do.
func TestBeside(t *testing.T) {
	_, file, _, _ := runtime.Caller(0)
	b, err := os.ReadFile(filepath.Join(filepath.Dir(file), "testdata", "beside.txt"))
	if err != nil || string(b) != "beside\n" {
		t.Errorf("%s: %v", b, err)
	}
	if _, err := os.Stat(filepath.Join(runtime.GOROOT(), "src", "sync", "mutex.go")); err != nil {
		t.Error(err)
	}
}

func TestOwn(t *testing.T) {
	t.Log("own", *own)
}
