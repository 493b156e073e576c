package hooklog

import (
	_ "embed"
	"fmt"
	"os"
	"runtime"
	"syscall"
	"unsafe"
)

// Layout is the source of the log's layout, which the hooks have too.
//
//go:embed layout.go
var Layout string

// Create makes a log with room for so many chunks, 0 for DefaultChunks, that the next program writes; reader says
// that somebody reads along. The file takes no more of the disk than what is written.
func Create(path string, chunks int, reader bool) error {
	f, err := os.Create(path)
	if err != nil {
		return err
	}
	defer f.Close()
	if err := begin(f, chunks, reader); err != nil {
		return err
	}
	return f.Close()
}

// CreateInMemory makes a log that lies in memory, and reads along. The path is that of a symbolic link to it, which leads there
// until the Reader is closed, and has to be removed then. Where the system has no such memory it is that of a file.
func CreateInMemory(path string) (*Reader, error) {
	f, err := memoryFile(path)
	if err != nil {
		return nil, err
	}
	if err := begin(f, ReusedChunks, true); err != nil {
		f.Close()
		return nil, err
	}
	return openFile(f, path)
}

// memoryFile makes a file that is gone once nobody has it open or mapped, and the link to it; or else a file.
func memoryFile(path string) (*os.File, error) {
	const memfdCreate, closeOnExec = 319, 1
	if runtime.GOOS == "linux" && runtime.GOARCH == "amd64" {
		name := []byte("gorec\x00")
		fd, _, failed := syscall.Syscall(memfdCreate, uintptr(unsafe.Pointer(&name[0])), closeOnExec, 0)
		if failed == 0 {
			os.Remove(path)
			return os.NewFile(fd, path), os.Symlink(fmt.Sprintf("/proc/%d/fd/%d", os.Getpid(), fd), path)
		}
	}
	return os.Create(path)
}

// begin makes a log of an empty file.
func begin(f *os.File, chunks int, reader bool) error {
	if chunks == 0 {
		chunks = DefaultChunks
	}
	h := Header{Magic: Magic, Chunks: uint32(chunks)}
	if reader {
		h.Reader = 1
	}
	err := f.Truncate(int64(regionsOf(chunks).end))
	if err == nil {
		_, err = f.WriteAt((*[unsafe.Sizeof(h)]byte)(unsafe.Pointer(&h))[:], 0)
	}
	if err != nil {
		return fmt.Errorf("the log: %w", err)
	}
	return nil
}
