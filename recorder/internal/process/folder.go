package process

import (
	"os"
	"path/filepath"
	"syscall"
	"time"
)

// prefix begins the names of gorec's temporary folders, and of no others.
const prefix = "gorec-run."

// locked locks a folder that nobody else has locked.
func locked(folder string) (*os.File, error) {
	f, err := os.Open(folder)
	if err != nil {
		return nil, err
	}
	if err := syscall.Flock(int(f.Fd()), syscall.LOCK_EX|syscall.LOCK_NB); err != nil {
		f.Close()
		return nil, err
	}
	return f, nil
}

// sweep removes the folders that a killed gorec left: those that nobody has locked. One that was just made may be about to be.
func sweep() {
	old, _ := filepath.Glob(filepath.Join(os.TempDir(), prefix+"*"))
	for _, folder := range old {
		st, err := os.Lstat(folder)
		if err != nil || !st.IsDir() || time.Since(st.ModTime()) < time.Minute {
			continue
		}
		if lock, err := locked(folder); err == nil {
			os.RemoveAll(folder)
			lock.Close()
		}
	}
}
