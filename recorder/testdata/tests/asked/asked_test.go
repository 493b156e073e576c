// races: srv_hits

package asked

import (
	"net/http"
	"net/http/httptest"
	"sync"
	"testing"
)

type srv struct {
	mu   sync.Mutex
	hits int
	lock bool
	all  sync.WaitGroup // those that ask, since a connection's write comes before later reads of any
}

func (s *srv) ServeHTTP(w http.ResponseWriter, r *http.Request) {
	s.all.Done()
	s.all.Wait()
	if s.lock {
		s.mu.Lock()
		defer s.mu.Unlock()
	}
	s.hits++
}

func ask(t *testing.T, s *srv) {
	ts := httptest.NewServer(s)
	defer ts.Close()
	s.all.Add(8)
	var wg sync.WaitGroup
	for i := 0; i < 8; i++ {
		wg.Add(1)
		go func() {
			defer wg.Done()
			if res, err := http.Get(ts.URL); err == nil {
				res.Body.Close()
			}
		}()
	}
	wg.Wait()
}

func TestLocked(t *testing.T)   { ask(t, &srv{lock: true}) }
func TestUnlocked(t *testing.T) { ask(t, &srv{}) }
func TestOther(t *testing.T)    { ask(t, &srv{lock: true}) }
