package main

import (
	"os"
	"path/filepath"
	"testing"
)

// TestKept: where -o is a folder, the trace is a file in it, and any other -o is a file; of tests the folder has only traces that
// aren't clean. With -o /dev/null none is kept.
func TestKept(t *testing.T) {
	folder := t.TempDir()
	file := filepath.Join(folder, "shop.gotrace")
	inFolder := filepath.Join(folder, "example.com_shop.gotrace")
	trace := filepath.Join(t.TempDir(), "trace")
	if err := os.WriteFile(trace, []byte("gotrace 1\n"), 0o644); err != nil {
		t.Fatal(err)
	}
	for _, c := range []struct {
		named  string
		isTest bool
		status int
		want   string
	}{
		{folder, false, 0, inFolder},
		{folder, true, racing, inFolder},
		{folder, true, 0, ""},
		{file, false, 0, file},
		{file, true, 0, file},
		{os.DevNull, false, racing, ""},
	} {
		s := &session{options: options{kept: c.named}, name: "example.com_shop", isTest: c.isTest}
		r := &run{session: s, trace: trace, verdict: verdict{Status: c.status}}
		r.keep()
		text, err := os.ReadFile(c.want)
		if r.Trace != c.want || c.want != "" && (err != nil || string(text) != "gotrace 1\n") {
			t.Errorf("%+v: kept in %q, %v", c, r.Trace, err)
		}
		os.Remove(c.want)
	}
}

// TestFileName: programs of one session have files of their own.
func TestFileName(t *testing.T) {
	paths := map[string]string{}
	for _, path := range []string{"m", "m/a_b", "m/a/b", "m_a/b", "m_a_b", "m/a__b"} {
		p := session{isTest: true}
		p.isCalled(path)
		if before, there := paths[p.name]; there {
			t.Errorf("%s and %s are both %s", before, path, p.name)
		}
		paths[p.name] = path
	}
	p := session{isTest: true}
	if p.isCalled("example.com/shop"); p.name != "example.com_shop.test" {
		t.Error(p.name)
	}
}
