package patch

import (
	"encoding/json"
	"fmt"
	"os"
	"path/filepath"
	"strings"
)

// Flags are those of a user's go build that gorec's have to go together with.
type Flags struct {
	Overlay string   // -overlay: a file's name, "" for none
	Tags    string   // -tags: names with commas or spaces between them
	Gcflags []string // each -gcflags, in their order; those of GOFLAGS come before those of the command
}

// recorded are the compiler's flags of a recorded package. Without checkptr=0, -race would also check uses of unsafe.
const recorded = "-race -d=checkptr=0"

// Flags gives the flags of a build that can be recorded, with the user's own. Names in the user's overlay are relative to
// dir, where go build runs.
func (s *Set) Flags(user Flags, dir string) ([]string, error) {
	file := s.File
	if user.Overlay != "" {
		var err error
		if file, err = s.merge(user.Overlay, dir); err != nil {
			return nil, err
		}
	}
	flags := []string{"-overlay=" + file, "-tags=" + withTag(user.Tags), "-gcflags=all=" + recorded}
	for _, value := range user.Gcflags {
		both, err := withRace(value)
		if err != nil {
			return nil, err
		}
		flags = append(flags, "-gcflags="+both)
	}
	return flags, nil
}

// withTag adds the tag race to a list of tags.
func withTag(tags string) string {
	list := strings.FieldsFunc(tags, func(r rune) bool { return r == ',' || r == ' ' })
	return strings.Join(append([]string{"race"}, list...), ",")
}

// withRace adds the flags of a recorded package to a value of -gcflags. Of several values the last one that is for a
// package counts alone, so each needs them. The user's come last and so count where both say the same.
func withRace(value string) (string, error) {
	value = strings.TrimSpace(value)
	if value == "" || strings.HasPrefix(value, "-") {
		return strings.TrimSpace(recorded + " " + value), nil
	}
	pattern, flags, found := strings.Cut(value, "=")
	if !found || pattern == "" {
		return "", fmt.Errorf("-gcflags=%s: it isn't <pattern>=<flags>", value)
	}
	return strings.TrimSpace(pattern + "=" + recorded + " " + strings.TrimSpace(flags)), nil
}

// merge makes an overlay of gorec's and the user's, beside gorec's. Its name is that of its content, so that builds side by side
// don't disturb each other.
func (s *Set) merge(name, dir string) (string, error) {
	text, err := os.ReadFile(absolute(dir, name))
	if err != nil {
		return "", fmt.Errorf("-overlay: %w", err)
	}
	var theirs overlay
	if err := json.Unmarshal(text, &theirs); err != nil {
		return "", fmt.Errorf("-overlay: %s: %w", name, err)
	}
	all := map[string]string{}
	for from, to := range s.replaced {
		all[from] = to
	}
	for from, to := range theirs.Replace {
		from = absolute(dir, from)
		if _, both := s.replaced[from]; both {
			return "", fmt.Errorf("-overlay: %s replaces %s, which gorec has to replace", name, from)
		}
		if to != "" {
			to = absolute(dir, to)
		}
		all[from] = to
	}
	merged := encoded(all)
	file := filepath.Join(filepath.Dir(s.File), "overlay-"+checksum(merged)+".json")
	if err := write(file, merged); err != nil {
		return "", fmt.Errorf("-overlay: %w", err)
	}
	return file, nil
}

// absolute is a file's name seen from a folder.
func absolute(dir, name string) string {
	if filepath.IsAbs(name) {
		return filepath.Clean(name)
	}
	return filepath.Join(dir, name)
}
