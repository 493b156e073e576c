package patch

import (
	"encoding/json"
	"os"
	"path/filepath"
	"reflect"
	"strings"
	"testing"
)

func TestFlags(t *testing.T) {
	const all = "-gcflags=all=-race -d=checkptr=0"
	cases := []struct {
		name string
		user Flags
		want []string
	}{
		{"none", Flags{}, []string{"-overlay=O", "-tags=race", all}},
		{"tags", Flags{Tags: "a,b c"}, []string{"-overlay=O", "-tags=race,a,b,c", all}},
		{"for the named packages", Flags{Gcflags: []string{" -N -l"}},
			[]string{"-overlay=O", "-tags=race", all, "-gcflags=-race -d=checkptr=0 -N -l"}},
		{"for a pattern", Flags{Gcflags: []string{"all=-N", "./x/...= '-d=checkptr=2'"}},
			[]string{"-overlay=O", "-tags=race", all, "-gcflags=all=-race -d=checkptr=0 -N",
				"-gcflags=./x/...=-race -d=checkptr=0 '-d=checkptr=2'"}},
		{"an empty one", Flags{Gcflags: []string{"", "std="}},
			[]string{"-overlay=O", "-tags=race", all, "-gcflags=-race -d=checkptr=0", "-gcflags=std=-race -d=checkptr=0"}},
	}
	for _, c := range cases {
		got, err := (&Set{File: "O"}).Flags(c.user, "")
		if err != nil || !reflect.DeepEqual(got, c.want) {
			t.Errorf("%s: %v\ngot  %q\nwant %q", c.name, err, got, c.want)
		}
	}
	for _, wrong := range []string{"x", "=-N"} {
		if _, err := (&Set{File: "O"}).Flags(Flags{Gcflags: []string{wrong}}, ""); err == nil {
			t.Errorf("-gcflags=%s isn't refused", wrong)
		}
	}
}

func TestMergedOverlay(t *testing.T) {
	dir := t.TempDir()
	set := &Set{File: filepath.Join(dir, "overlay.json"), replaced: map[string]string{"/go/src/sync/once.go": "/c/sync/once.go"}}
	user := filepath.Join(dir, "user.json")
	write := func(text string) {
		if err := os.WriteFile(user, []byte(text), 0o644); err != nil {
			t.Fatal(err)
		}
	}
	merged := func() (string, error) {
		flags, err := set.Flags(Flags{Overlay: "user.json"}, dir)
		if err != nil {
			return "", err
		}
		return strings.TrimPrefix(flags[0], "-overlay="), nil
	}

	write(`{"Replace": {"a.go": "x/b.go", "/d/c.go": "", "/go/src/sync/map.go": "/m.go"}}`)
	name, err := merged()
	if err != nil {
		t.Fatal(err)
	}
	text, err := os.ReadFile(name)
	if err != nil {
		t.Fatal(err)
	}
	var got overlay
	if err := json.Unmarshal(text, &got); err != nil {
		t.Fatal(err)
	}
	want := map[string]string{
		"/go/src/sync/once.go": "/c/sync/once.go", "/go/src/sync/map.go": "/m.go",
		filepath.Join(dir, "a.go"): filepath.Join(dir, "x/b.go"), "/d/c.go": "",
	}
	if !reflect.DeepEqual(got.Replace, want) {
		t.Errorf("got %v, want %v", got.Replace, want)
	}
	if again, err := merged(); err != nil || again != name {
		t.Errorf("the second time: %s, %v, want %s", again, err, name)
	}

	for text, wrong := range map[string]string{
		`{"Replace": {"/go/src/sync/../sync/once.go": "x.go"}}`: "which gorec has to replace",
		`{"Replace": 1}`: "user.json",
	} {
		write(text)
		if _, err := merged(); err == nil || !strings.Contains(err.Error(), wrong) {
			t.Errorf("%s: got %v, want %s", text, err, wrong)
		}
	}
	if _, err := set.Flags(Flags{Overlay: "none.json"}, dir); err == nil {
		t.Error("a file that isn't there is no error")
	}
}
