package patch

import (
	"bytes"
	"crypto/sha256"
	"encoding/json"
	"fmt"
	"os"
	"path/filepath"
	"time"
)

// A Set is what a build needs so that its program can be recorded.
type Set struct {
	File     string // the overlay, for go build -overlay
	replaced map[string]string
}

// overlay is the form of go build's overlay file.
type overlay struct {
	Replace map[string]string
}

// keep is how long an overlay stays for a build that may use it.
const keep = 24 * time.Hour

// Overlay makes the overlay of a Go below the folder cache, or finds the one that is there. It removes old ones. A *Refusal is the
// error where Go's sources aren't as gorec knows them.
func Overlay(t Toolchain, cache string) (*Set, error) {
	files, err := patched(t)
	if err != nil {
		return nil, err
	}
	all := t.Root + t.Version
	for _, f := range files {
		all += f.name + f.text
	}
	folder := filepath.Join(cache, checksum([]byte(all)))
	set := &Set{File: filepath.Join(folder, "overlay.json"), replaced: map[string]string{}}
	now := time.Now()
	os.Chtimes(folder, now, now) // if it is there
	for _, f := range files {
		name := filepath.Join(folder, f.name)
		set.replaced[filepath.Join(t.Root, "src", f.name)] = name
		if err == nil {
			err = write(name, []byte(f.text))
		}
	}
	if err == nil {
		err = write(set.File, encoded(set.replaced))
	}
	if err != nil {
		return nil, fmt.Errorf("making the overlay for %s: %w", t.Version, err)
	}
	removeOld(cache, now.Add(-keep))
	return set, nil
}

func encoded(replaced map[string]string) []byte {
	text, _ := json.MarshalIndent(overlay{replaced}, "", "\t") // of strings there is no error
	return append(text, '\n')
}

func checksum(text []byte) string { return fmt.Sprintf("%x", sha256.Sum256(text))[:32] }

// write writes a file, unless it is there. Builds that read it or write it at the same time find all of it.
func write(name string, text []byte) error {
	if old, err := os.ReadFile(name); err == nil && bytes.Equal(old, text) {
		return nil
	}
	if err := os.MkdirAll(filepath.Dir(name), 0o755); err != nil {
		return err
	}
	draft, err := os.CreateTemp(filepath.Dir(name), "draft-")
	if err != nil {
		return err
	}
	defer os.Remove(draft.Name())
	_, err = draft.Write(text)
	if closed := draft.Close(); err == nil {
		err = closed
	}
	if err != nil {
		return err
	}
	return os.Rename(draft.Name(), name)
}

// removeOld removes overlays that nobody has used since a time. What can't be removed stays.
func removeOld(cache string, since time.Time) {
	entries, _ := os.ReadDir(cache)
	for _, e := range entries {
		if info, err := e.Info(); err == nil && info.ModTime().Before(since) {
			os.RemoveAll(filepath.Join(cache, e.Name()))
		}
	}
}
