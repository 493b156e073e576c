package patch

import (
	"fmt"
	"os"
	"path/filepath"
)

// A change is what the overlay does to a file of Go.
type change struct {
	file     string // below GOROOT/src
	rules    []rule
	known    watch
	special  func(*source, *hooks) error // what no rule says
	more     string                      // comes after it
	from, to int                         // the minor versions of Go that have it, as in a rule
}

// patched gives all files of the overlay for a Go.
func patched(t Toolchain) ([]*source, error) {
	minor, err := t.minor()
	if err != nil {
		return nil, err
	}
	own, err := hooksFor(minor)
	if err != nil {
		return nil, fmt.Errorf("gorec's own files: %w", err)
	}
	var files []*source
	for _, c := range changes {
		if !isIn(minor, c.from, c.to) {
			continue
		}
		text, err := os.ReadFile(filepath.Join(t.Root, "src", c.file))
		if err != nil {
			return nil, fmt.Errorf("reading the sources of %s: %w", t.Version, err)
		}
		s := &source{version: t.Version, minor: minor, name: c.file, text: string(text)}
		if err := s.change(c, own); err != nil {
			return nil, err
		}
		files = append(files, s)
	}
	return files, nil
}

func (s *source) change(c change, own *hooks) error {
	err := s.apply(c.rules)
	if err == nil && c.known.calls != "" {
		err = s.check(c.known)
	}
	if err == nil && c.special != nil {
		err = c.special(s, own)
	}
	s.text += adapt(c.more, s.minor)
	return err
}
