// Package hooklog has the log that the hooks in package runtime write: its layout, a Reader that reads along
// while the program runs, and Create. The hooks have their own copy of the numbers (internal/patch/_runtime).
package hooklog

import "unsafe"

const (
	// Magic is the first word of a log.
	Magic = 0x35306b6f6f68 // "hook05"

	// UnitSize is that of a unit in bytes: two words.
	UnitSize = 16

	// ChunkUnits is how many units a chunk has.
	ChunkUnits = 128

	// SiteBits is that of the numbers of sites.
	SiteBits = 20

	// StackWords is how many words there are for the stacks of sites.
	StackWords = 1 << 23

	// DefaultChunks is how many chunks a log has, unless its creator says it: 671 MB.
	DefaultChunks = 327680

	// ReusedChunks is how many chunks a log in memory has. They are used again and again.
	ReusedChunks = 65536

	pageSize   = 4096
	chunkSize  = UnitSize * ChunkUnits
	chunkWords = 2 * ChunkUnits
)

// Header is the log's first page. Several of its words have a cache line of their own.
type Header struct {
	Magic  uint64
	Chunks uint32 // so many has the log room for

	Reader  uint32 // 1: somebody reads along, and gives chunks back
	Taken   uint32 // the pid of the program that writes here, 0 before it starts
	Ended   uint32 // 1: the program has ended by exit, or by main's return
	Full    uint32 // why recording stopped, a Fullness
	Segment uint32 // the number of the segment that is gathered
	Stop    uint32 // 1: the reader wants no more
	Seed    uint32 // 0: no extra switches of goroutines

	Text, Types uint64 // addresses of the running program

	_          [72]byte
	Seq        uint64 // the number of the last step
	_          [56]byte
	Announced  uint32 // chunks that were handed out so far
	_          [60]byte
	Freed      uint32 // chunks that the reader gave back so far
	_          [60]byte
	Moments    uint32 // numbers of moments that were handed out
	_          [60]byte
	Goroutines uint32 // so far
	_          [60]byte
	Words      uint64 // of the stacks that are used
}

// Fullness says why recording stopped.
type Fullness uint32

const (
	NotFull     Fullness = iota
	FullChunks           // no chunk was left, or the reader wanted no more
	FullNumbers          // numbers of goroutines ran out, or memory for what is remembered of them
	FullDisk             // the disk had no room for more
)

func (f Fullness) String() string {
	switch f {
	case NotFull:
		return ""
	case FullChunks:
		return "the log has no room for more records"
	case FullDisk:
		return "the disk has no room for more records"
	}
	return "more goroutines than the log has numbers for"
}

// Op is the low byte of a record's first word: its kind.
type Op uint8

// The kinds of records. Those from Go on are steps.
const (
	Nothing Op = iota // not written yet
	Switch
	Moment
	Read
	Write
	Object
	Label
	Pad Op = 255
)

// The steps of goroutines, and orders that the library tells.
const (
	Go Op = iota + 16
	Exit
	Acquire
	Release
	ReleaseMerge
	ReleaseAcquire
	Finalizer
)

// Atomic operations.
const (
	AtomicLoad Op = iota + 24
	AtomicStore
	AtomicRMW
	AtomicFail
)

// What is done with channels.
const (
	Send Op = iota + 32
	Receive
	Meet
	Close
	ReceiveClosed
	DefaultSend
	DefaultReceive
	Default
	CaseSend
	CaseReceive
)

// What is done with locks and onces. W is of a RWMutex, R of one for reading, the others of a Mutex.
const (
	Lock Op = iota + 48
	Unlock
	RLock
	RUnlock
	TryLock
	TryRLock
	TryFail
	WLock
	WUnlock
	TryWLock
	TryRFail
	OnceBegin
	OnceEnd
	OnceDone
)

// Edge is the wake of a goroutine that waits on a Cond.
const Edge Op = 64

// OpOf is the kind of the record with this first word.
func OpOf(word uint64) Op { return Op(word) }

// units answers how many units a record has, by its first word.
func units(word uint64) int {
	switch op := Op(word); {
	case op == Send || op == Receive || op == Meet || op == Edge:
		return 3
	case op >= Go && op < Pad || op == Object:
		return 2
	case op == Label:
		return 1 + (int(word>>8&0xff)+UnitSize-1)/UnitSize
	}
	return 1
}

// regions are where the parts of a log begin.
type regions struct{ announce, free, sites, words, chunks, end int }

func regionsOf(chunks int) regions {
	ring := roundUp(4 * chunks)
	var r regions
	r.announce = pageSize
	r.free = r.announce + ring
	r.sites = r.free + ring // of each: one more than where its stack is, or 0
	r.words = r.sites + 4<<SiteBits
	r.chunks = r.words + 8*StackWords
	r.end = r.chunks + chunks*chunkSize
	return r
}

func roundUp(n int) int { return (n + pageSize - 1) &^ (pageSize - 1) }

var _ [pageSize - unsafe.Sizeof(Header{})]byte // a header fits into its page
