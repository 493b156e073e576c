package hooklog

import (
	"errors"
	"os"
	"syscall"
	"unsafe"
)

// Log is a log that is mapped into memory.
type Log struct {
	Header         *Header
	Announce, Free []uint32 // rings of chunks
	Sites          []uint32 // one more than where a site's stack is, or 0
	Words          []uint64 // of stacks: how many addresses, then these
	chunks         []uint64
	mapped         []byte
	writable       bool
}

// Map maps a log that is open, for reading alone where the file can't be written.
func Map(f *os.File) (*Log, error) {
	var h Header
	if _, err := f.ReadAt((*[unsafe.Sizeof(h)]byte)(unsafe.Pointer(&h))[:], 0); err != nil || h.Magic != Magic {
		return nil, errors.New("no log of this gorec's hooks")
	}
	at := regionsOf(int(h.Chunks))
	if st, err := f.Stat(); err != nil || h.Chunks == 0 || st.Size() < int64(at.end) {
		return nil, errors.New("the log isn't whole")
	}
	b, err := syscall.Mmap(int(f.Fd()), 0, at.end, syscall.PROT_READ|syscall.PROT_WRITE, syscall.MAP_SHARED)
	writable := err != syscall.EACCES
	if !writable {
		b, err = syscall.Mmap(int(f.Fd()), 0, at.end, syscall.PROT_READ, syscall.MAP_SHARED)
	}
	if err != nil {
		return nil, err
	}
	return &Log{
		Header:   (*Header)(unsafe.Pointer(&b[0])),
		Announce: unsafe.Slice((*uint32)(unsafe.Pointer(&b[at.announce])), h.Chunks),
		Free:     unsafe.Slice((*uint32)(unsafe.Pointer(&b[at.free])), h.Chunks),
		Sites:    unsafe.Slice((*uint32)(unsafe.Pointer(&b[at.sites])), 1<<SiteBits),
		Words:    unsafe.Slice((*uint64)(unsafe.Pointer(&b[at.words])), StackWords),
		chunks:   unsafe.Slice((*uint64)(unsafe.Pointer(&b[at.chunks])), int(h.Chunks)*chunkWords),
		mapped:   b,
		writable: writable,
	}, nil
}

// Unmap gives back the memory.
func (l *Log) Unmap() error { return syscall.Munmap(l.mapped) }

// Chunk is a chunk's words.
func (l *Log) Chunk(slot uint32) []uint64 { return l.chunks[int(slot)*chunkWords:][:chunkWords] }
