package ordered

import (
	"os"
	"sync"
	"testing"
)

var (
	mu                  sync.Mutex
	cleaned, ran, times int
)

func TestMain(m *testing.M) {
	status := m.Run()
	ran++
	times++
	os.Exit(status)
}

func TestCleanups(t *testing.T) {
	ran++
	for _, name := range []string{"a", "b"} {
		t.Run(name, func(t *testing.T) {
			t.Parallel()
			t.Cleanup(func() {
				mu.Lock()
				cleaned++
				mu.Unlock()
			})
		})
	}
	t.Cleanup(func() { cleaned++ })
}

func BenchmarkTimes(b *testing.B) {
	times++
	b.Run("part", func(b *testing.B) { times++ })
	times++
	b.RunParallel(func(pb *testing.PB) {
		for pb.Next() {
		}
		mu.Lock()
		times++
		mu.Unlock()
	})
	times++
}

func FuzzRan(f *testing.F) {
	f.Add(1)
	ran++
	f.Fuzz(func(t *testing.T, n int) { ran++ })
	ran++
}

func ExampleMain() {
	ran++
	// Output:
}
