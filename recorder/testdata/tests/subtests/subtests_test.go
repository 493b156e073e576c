// races: hits, tops

package subtests

import "testing"

var hits, tops int

// Nothing orders what short parallel subtests do.
func TestHits(t *testing.T) {
	for _, name := range []string{"a", "b"} {
		t.Run(name, func(t *testing.T) {
			t.Parallel()
			hits++
		})
	}
}

func TestFirst(t *testing.T) {
	t.Parallel()
	tops++
}

func TestSecond(t *testing.T) {
	t.Parallel()
	tops++
}
