package trace

import "strconv"

const longestName = 48 // so that a number fits after it

// names gives each thing a name of its own: it has the number that was put last after each.
type names map[string]int

func (n names) take(s string) string {
	s = word(s, isNameByte)
	if s == "" || s == "nil" || s == "main" {
		s += "_"
	}
	if len(s) > longestName {
		s = s[:longestName]
	}
	t := s
	for n[t] > 0 {
		n[s]++
		t = s + "_" + strconv.Itoa(n[s])
	}
	n[t] = 1
	return t
}

// word is a text with _ in the place of all bytes that don't fit.
func word(s string, fits func(byte) bool) string {
	b := []byte(s)
	for i, c := range b {
		if !fits(c) {
			b[i] = '_'
		}
	}
	return string(b)
}

func isNameByte(c byte) bool {
	return c == '_' || '0' <= c && c <= '9' || 'a' <= c && c <= 'z' || 'A' <= c && c <= 'Z'
}

// PlaceWord is a place without what a place of a trace can't have.
func PlaceWord(s string) string {
	s = word(s, func(c byte) bool { return c > 0x20 && c <= 0x7e })
	if len(s) > 128 {
		s = s[len(s)-128:]
	}
	return s
}
