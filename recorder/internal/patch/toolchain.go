package patch

import (
	"bytes"
	"encoding/json"
	"fmt"
	"os/exec"
	"regexp"
	"strconv"
	"strings"
)

// A Toolchain is an installed Go, as `go env` describes it for a build.
type Toolchain struct {
	Root    string `json:"GOROOT"`
	Version string `json:"GOVERSION"` // as go1.19.8
	OS      string `json:"GOOS"`      // of what it builds
	Arch    string `json:"GOARCH"`
}

// supported are the versions that the recorder's suites have passed.
const supported = "go1.19 and go1.21 to go1.27"

// isSupported reports whether the minor version of Go 1 is one of these.
func isSupported(minor int) bool { return minor == 19 || minor >= 21 && minor <= 27 }

// Find asks the go command which Go it is.
func Find(command string) (t Toolchain, err error) {
	c := exec.Command(command, "env", "-json", "GOROOT", "GOVERSION", "GOOS", "GOARCH")
	var complaint bytes.Buffer
	c.Stderr = &complaint
	out, err := c.Output()
	if err != nil {
		return t, fmt.Errorf("%s env: %w: %s", command, err, strings.TrimSpace(complaint.String()))
	}
	if err := json.Unmarshal(out, &t); err != nil {
		return t, fmt.Errorf("%s env: %w", command, err)
	}
	return t, nil
}

var release = regexp.MustCompile(`^go1\.(\d+)(\.\d+)?([ -].*)?$`)

// minor is the n of Go 1.n, or why gorec doesn't record programs of this Go.
func (t Toolchain) minor() (int, error) {
	if t.OS != "linux" || t.Arch != "amd64" {
		return 0, fmt.Errorf("gorec records programs for linux/amd64 only, and this is for %s/%s", t.OS, t.Arch)
	}
	if m := release.FindStringSubmatch(t.Version); m != nil {
		n, err := strconv.Atoi(m[1])
		if err == nil && isSupported(n) {
			return n, nil
		}
	}
	return 0, fmt.Errorf("gorec doesn't record programs of %s, only of %s: another version has to be taken up first (%s)",
		t.Version, supported, guide)
}

// guide says where a reader finds how a version is taken up.
const guide = `see "A new version of Go" in CONTRIBUTING.md`
