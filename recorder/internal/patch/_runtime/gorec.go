// Hooks of the recorder gorec: this file and its neighbours stand in package runtime in place of the race detector's
// object. The compiler's instrumentation calls them (build tag race), and they write a log that gorec reads along.
// Nothing here allocates from Go's heap, has a write barrier or grows a stack: memory is that of mmap, named by uintptr,
// and package patch has all functions be nosplit.

//go:build race

package runtime

import (
	"runtime/internal/atomic"
	"unsafe"
)

const (
	recSites      = 1 << logSiteBits
	recDense      = 1 << 13 // the sites that are tried first, so that their keys stay in the processor's cache
	recBlock      = 64      // moments are numbered in blocks
	recMoments    = 1 << 20 // so many are known until they are told
	recDeepest    = 64      // calls of a stack that are told
	recDeep       = 128     // below so many calls a stack is told apart by its last ones alone
	recLast       = 16
	recLastIfMany = 4
	recAhead      = 128   // chunks for which a disk has to have room at once
	recUnread     = 32768 // chunks that may wait for who reads along
	recPaced      = 8192  // from so many on the program gets slower
)

// recOn: the log can be written. It is read without synchronization.
var recOn bool

// rec has what is set once, before the program runs.
var rec struct {
	log      uintptr // *logHeader
	announce uintptr // [chunks]uint32
	free     uintptr // [chunks]uint32
	sites    uintptr // [recSites]uint32
	words    uintptr // [logStackWords]uint64
	units    uintptr // the chunks
	chunks   uint32
	reads    bool // somebody reads along

	threads uintptr // slots of recThread
	moments uintptr // the last recMoments moments
	keys    uintptr // [recSites]uint64: of the stacks
	boot    uintptr // the context of what starts the first goroutine
}

// recData is how far past twice its address the cell of data is.
var recData uintptr

// recLists are under their lock.
var recLists struct {
	lock    uint32
	boot    uint32  // the lock of rec.boot, by which several threads may start goroutines
	threads uint32  // slots that were used so far
	freed   uintptr // *recThread, of goroutines that have ended
	rest    uintptr // [recMostRest]recRest: chunks that ended goroutines left
	rests   uint32
	living  uint32 // goroutines
	fresh   uint32 // slots that were used for the first time
	reused  uint32 // chunks that lie where one was given back
}

// recRest is what an ended goroutine left of a chunk.
type recRest struct{ at, to uintptr }

const recMostRest = 1 << 14

func recRestAt(n uint32) *recRest {
	return (*recRest)(unsafe.Pointer(recLists.rest + uintptr(n)*unsafe.Sizeof(recRest{})))
}

// recFrame is a call on a goroutine's shadow stack. depth is how far below the stack's top the called function's frame
// ends: it stays when the stack moves, and tells which calls a panic has ended.
type recFrame struct {
	pc    uintptr // the return address in the caller
	hash  uint64  // of all calls up to this one, if known
	depth uint32
	known uint32
}

const recFrameSize = unsafe.Sizeof(recFrame{})

// recMoment remembers a moment that was made, and words that were accessed then and aren't told yet.
type recMoment struct {
	key         uint64
	stamp, site uint32
	run         recRun
	listed      bool
}

// recRun is words of which an access has to be written: from each one to the next it is the same step.
type recRun struct {
	at, step uintptr // the last word, 0 for none
	n, id    uint32  // words, and the moment
	gen      uint16
	mask     uint8 // the bytes of each, but for the last one
	last     uint8 // the bytes of the last one, of which more may come
	write    bool
}

const recLongest = 1<<16 - 1

// recAccess remembers accesses that were written: reads of a word that several goroutines use, or accesses of a word of this
// one's that its cell has no place for.
type recAccess struct {
	word  uintptr
	w, id uint32 // the cell's last write, and the last moment
	mask  uint8
}

// recPlace remembers the number of a stack.
type recPlace struct {
	key  uint64
	site uint32
}

const (
	recPlaceBits   = 6
	recMomentBits  = 7
	recMomentCache = 1 << recMomentBits
	recAccessCache = 64
)

// recThread is the context of a goroutine, g.racectx.
type recThread struct {
	top, base, end            uintptr // *recFrame: the innermost call
	at, to                    uintptr // where the chunk goes on, and where it ends
	me                        uint32  // one more than the goroutine's number
	epoch                     uint32  // moments from this one on come after the last step that releases
	moment, momentsEnd        uint32  // the next number of a moment, and the end of the block
	stamp                     uint32  // changes with each step, so moments before are over
	segment                   uint32
	ignore                    uint32
	waits                     uint32 // the site at which it waits
	stint                     uint64
	renewed                   uint64 // the last step after which what it repeats is told anew
	random                    uint32
	tags                      uint32 // twice the tag of the goroutine since its last step that releases
	told                      uint32 // what the upper bits of a shared cell's r are in this segment
	next                      uintptr
	sharedWrites, sharedReads recRun // what others did with words that this goroutine came to, too
	pending                   uint32 // how many of the moments below are listed: they may have words that aren't told
	list                      [recMomentCache]uint8
	moments                   [recMomentCache]recMoment
	accesses                  [recAccessCache]recAccess
	places                    [1 << recPlaceBits]recPlace // of steps
}

const recThreadSize = 1 << 16 // with the shadow stack after it

const recMostThreads = 1 << 20

// The heap of a program with hooks is where the race detector wants it: from 0xc000000000 to 0xe000000000. At twice an address
// stands its cell, of 16 bytes for 8 of memory, and at a quarter of it the type of an object, of 4 bytes for 16. The types of
// objects that begin in the middle of 16 bytes stand after all others.
const (
	recHeap     = 6 << recHeapBits
	recHeapBits = 37

	recShared = 1 << 31 // in owner
	recAgain  = 1 << 29 // in owner, beside the number
	recLocked = 1<<32 - 1

	// Of a heap object's base: its type's offset among the types, how far past it the object begins, and in which segment
	// it was told.
	recTypeOf       = 1<<24 - 1 // times 8
	recPadShift     = 24
	recSegmentShift = 28
)

// recCell is about 8 bytes of memory. owner 0: nobody used it since it was allocated; recLocked: it is being changed; without
// recShared: one more than the number of the only goroutine that used it, and w, r are the moments of its last write and
// read. With recShared: several did. Then w is the moment of the last write, and the lower 30 bits of owner and of r are the
// tags of four goroutines that have read since then; the upper two of r say in which segment its object was told. With recAgain
// several did, but since a write that was written, of the bytes wmask, only this goroutine has, and only these bytes.
// gen counts how often the memory was used anew.
type recCell struct {
	w, r         uint32
	owner        uint32
	gen          uint16
	wmask, rmask uint8
}

const (
	recTagBits = 15
	recTag     = 1<<recTagBits - 1
	recTags    = 1<<(2*recTagBits) - 1
	recOdd     = 1<<recTagBits | 1
)

func recHead() *logHeader { return (*logHeader)(unsafe.Pointer(rec.log)) }

// recContext is the context of the running goroutine, or nil.
func recContext() *recThread { return (*recThread)(unsafe.Pointer(getg().racectx)) }

// recCellOf is the cell of an address, nil for one that isn't looked after, as of a constant.
func recCellOf(addr uintptr) *recCell {
	if recIsHeap(addr) {
		return recHeapCell(addr)
	}
	return recDataCell(addr)
}

func recIsHeap(addr uintptr) bool { return addr>>recHeapBits == recHeap>>recHeapBits }

func recHeapCell(addr uintptr) *recCell { return (*recCell)(unsafe.Pointer(addr &^ 7 * 2)) }

func recDataCell(addr uintptr) *recCell {
	if addr-racedatastart < racedataend-racedatastart {
		return (*recCell)(unsafe.Pointer(recData + addr&^7*2))
	}
	return nil
}

// recSpin waits for another thread to let go of a lock.
func recSpin(turns int) {
	if turns < 20 {
		procyield(10)
		return
	}
	osyield()
}

func recLock(l *uint32) {
	for turns := 0; !atomic.Cas(l, 0, 1); turns++ {
		recSpin(turns)
	}
}

func recUnlock(l *uint32) { atomic.Store(l, 0) }

// recMap is new memory, or that of a file; 0 where there is none.
func recMap(at, size uintptr, fd int32) uintptr {
	flags := int32(_MAP_PRIVATE | _MAP_ANON | 0x4000) // MAP_NORESERVE
	if fd >= 0 {
		flags = 1 | 0x4000 // MAP_SHARED
	}
	if at != 0 {
		flags |= _MAP_FIXED
	}
	p, failed := mmap(unsafe.Pointer(at), size, _PROT_READ|_PROT_WRITE, flags, fd, 0)
	if failed != 0 {
		return 0
	}
	return uintptr(p)
}

// rec_map_shadow makes the cells of data. Those of the heap are there.
func rec_map_shadow(addr, size, _, _ uintptr) {
	if rec.log == 0 || recIsHeap(addr) {
		return
	}
	cells := recMap(0, 2*size+logPageSize, -1)
	if cells == 0 {
		recStop(logFullNumbers)
		return
	}
	recData = cells - addr&^7*2
}

// recStop stops recording: what follows isn't told.
func recStop(why logFullness) {
	recOn = false
	if rec.log != 0 {
		atomic.Cas(&recHead().Full, 0, uint32(why))
	}
}

// rec_malloc says that memory is used anew.
func rec_malloc(_, _, addr, size uintptr) {
	c := recCellOf(addr)
	if rec.log == 0 || size == 0 || c == nil {
		return
	}
	end := uintptr(unsafe.Pointer(c)) + (addr&7+size+7)>>3<<4
	for at := uintptr(unsafe.Pointer(c)); at < end; at += 16 {
		if second := *(*uint64)(unsafe.Pointer(at + 8)); uint32(second) != 0 {
			*(*uint64)(unsafe.Pointer(at)) = 0
			*(*uint64)(unsafe.Pointer(at + 8)) = uint64(uint16(second>>32)+1) << 32
		}
	}
}

// recMalloc says that an object of the heap is used anew, and its type.
func recMalloc(p unsafe.Pointer, size uintptr, typ *_type) {
	if rec.log == 0 {
		return
	}
	addr := uintptr(p)
	rec_malloc(0, 0, addr, size)
	if recIsHeap(addr) {
		of := (uintptr(unsafe.Pointer(typ)) - firstmoduledata.types) >> 3
		if typ == nil || of > recTypeOf {
			of = 0
		}
		pad := uintptr(0)
		if size > 512 || size < 16 && (typ == nil || typ.ptrdata == 0) {
			pad = addr & 15 // of a header, or of what is smaller than its 16 bytes and ends with them
		}
		*recTypeAt(addr - pad) = uint32(of | pad<<recPadShift)
	}
}

// recTypeAt is what is known of the object that begins at an address.
func recTypeAt(base uintptr) *uint32 {
	return (*uint32)(unsafe.Pointer(base>>4<<2 + (base>>3&1)<<(recHeapBits-2)))
}

func rec_free(_, _, _, _ uintptr) {}

func rec_report_count(n, _, _, _ uintptr) { *(*uint64)(unsafe.Pointer(n)) = 0 }

func rec_proc_create(p, _, _, _ uintptr) { *(*uintptr)(unsafe.Pointer(p)) = 1 }

func rec_proc_destroy(_, _, _, _ uintptr) {}

func rec_fini(_, _, _, _ uintptr) {
	recFinish()
	if rec.log != 0 {
		atomic.Store(&recHead().Ended, 1)
	}
}

func rec_go_ignore_sync_begin(t, _, _, _ uintptr) {
	if t != 0 {
		(*recThread)(unsafe.Pointer(t)).ignore++
	}
}

func rec_go_ignore_sync_end(t, _, _, _ uintptr) {
	if t != 0 {
		(*recThread)(unsafe.Pointer(t)).ignore--
	}
}
