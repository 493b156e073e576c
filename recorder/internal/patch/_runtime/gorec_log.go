// The log: how a program begins one, and how records and places get into it.

//go:build race

package runtime

import (
	"runtime/internal/atomic"
	"unsafe"
)

// recSyscall is a system call; a failure is a number from -4095 to -1.
func recSyscall(number, a, b, c, d, e, f uintptr) uintptr

// recFP is the caller's frame pointer.
func recFP() uintptr

// recCall calls a function with these arguments on the system stack, as a goroutine's stack may have no room where a hook is
// called. The function isn't to use systemstack.
//
//go:noescape
func recCall(code uintptr, t *recThread, a, b, c, d uintptr)

const (
	recSysOpen, recSysClose, recSysSeek, recSysAdvise, recSysPid, recSysTruncate = 2, 3, 8, 28, 39, 77

	recPopulate = 23 // MADV_POPULATE_WRITE
	recUnknown  = 22 // EINVAL

	recOpenFlags = 0x80042 // O_RDWR, O_CREAT, O_CLOEXEC
	recExclusive = 0x80    // O_EXCL
)

// recVariable is the value of an environment variable, without the length, or nil.
func recVariable(name string) *byte {
	for i := argc + 1; ; i++ {
		p := argv_index(argv, i)
		if p == nil {
			return nil
		}
		n := len(name)
		if s := gostringnocopy(p); len(s) > n && s[:n] == name && s[n] == '=' {
			return (*byte)(add(unsafe.Pointer(p), uintptr(n)+1))
		}
	}
}

// rec_init is the first call of all. Without a log there are no contexts, so that nothing is told.
func rec_init(gctx, pctx, _, _ uintptr) {
	*(*uintptr)(unsafe.Pointer(pctx)) = 1
	if argv == nil || argc == 0 {
		return
	}
	name := recVariable("GOREC_LOG")
	if name == nil || *name == 0 || !recOpenLog(name) {
		return
	}
	h := recHead()
	h.Text, h.Types = uint64(firstmoduledata.text), uint64(firstmoduledata.types)
	rec.threads = recMap(0, recMostThreads*recThreadSize, -1)
	rec.moments = recMap(0, recMoments*logUnitSize, -1)
	rec.keys = recMap(0, 8*recSites, -1)
	recLists.rest = recMap(0, recMostRest*unsafe.Sizeof(recRest{}), -1)
	cells := recMap(2*recHeap, 2<<recHeapBits, -1)
	types := recMap(recHeap/4, 1<<recHeapBits/2, -1)
	if rec.threads == 0 || rec.moments == 0 || rec.keys == 0 || recLists.rest == 0 || cells == 0 || types == 0 {
		rec.log = 0
		return
	}
	recOn = true
	t := recNewThread()
	rec.boot = uintptr(unsafe.Pointer(t))
	*(*uintptr)(unsafe.Pointer(gctx)) = rec.boot
}

// recOwnName is the name of the log of a program that another recorded one has started.
var recOwnName [4096]byte

// recOpenLog maps the log of that name, or, where another process writes that, one with this process's number after it.
func recOpenLog(name *byte) bool {
	pid := uint32(recSyscall(recSysPid, 0, 0, 0, 0, 0, 0))
	taken, ok := recTryLog(name, pid, recOpenFlags)
	if !taken {
		return ok
	}
	own, n := &recOwnName, 0
	for ; n < len(own)-16; n++ {
		own[n] = *(*byte)(add(unsafe.Pointer(name), uintptr(n)))
		if own[n] == 0 {
			break
		}
	}
	own[n] = '.'
	for unit := uint32(1000000000); unit > 0; unit /= 10 {
		if pid >= unit {
			n++
			own[n] = byte('0' + pid/unit%10)
		}
	}
	own[n+1] = 0
	_, ok = recTryLog(&own[0], pid, recOpenFlags|recExclusive)
	return ok
}

// recTryLog maps a log; taken says that another process writes it.
func recTryLog(name *byte, pid uint32, flags uintptr) (taken, opened bool) {
	fd := recSyscall(recSysOpen, uintptr(unsafe.Pointer(name)), flags, 0644, 0, 0, 0)
	if int(fd) < 0 {
		return false, false
	}
	chunks, ok := uint32(logDefaultChunks), false
	size := recSyscall(recSysSeek, fd, 0, 2, 0, 0, 0)
	if size >= logPageSize {
		if p := recMap(0, logPageSize, int32(fd)); p != 0 {
			h := (*logHeader)(unsafe.Pointer(p))
			chunks = h.Chunks
			ok = h.Magic == logMagic && chunks > 0
			taken = ok && !atomic.Cas(&h.Taken, 0, pid)
		}
	}
	at := logRegionsOf(int(chunks))
	end := uintptr(at.end)
	if size < logPageSize {
		ok = int(recSyscall(recSysTruncate, fd, end, 0, 0, 0, 0)) >= 0
		size = end
	}
	if ok && !taken && size >= end {
		rec.log = recMap(0, end, int32(fd))
	}
	recSyscall(recSysClose, fd, 0, 0, 0, 0, 0)
	if rec.log == 0 {
		return taken, false
	}
	h := recHead()
	h.Magic, h.Chunks, h.Taken = logMagic, chunks, pid
	rec.chunks, rec.reads = chunks, h.Reader != 0
	rec.announce = rec.log + uintptr(at.announce)
	rec.free = rec.log + uintptr(at.free)
	rec.sites = rec.log + uintptr(at.sites)
	rec.words = rec.log + uintptr(at.words)
	rec.units = rec.log + uintptr(at.chunks)
	return false, true
}

// recPut is room for a record of so many units, 0 where there is none any more.
func recPut(t *recThread, units uintptr) uintptr {
	if t.at+units*logUnitSize > t.to && !recMore(t, units) {
		return 0
	}
	at := t.at
	t.at = at + units*logUnitSize
	return at
}

// recMore gives a goroutine another chunk.
func recMore(t *recThread, units uintptr) bool {
	recLeave(t)
	at, to := recRoom(units + 1)
	if at == 0 {
		return false
	}
	t.stint++
	recWord(at, 8, t.stint)
	recWord(at, 0, uint64(logSwitch)|uint64(t.me-1)<<8)
	t.at, t.to = at+logUnitSize, to
	return true
}

// recLeave ends what is left of a goroutine's chunk.
func recLeave(t *recThread) {
	if t.at < t.to {
		recWord(t.at, 0, uint64(logPad))
	}
	t.at, t.to = 0, 0
}

func recWord(at, offset uintptr, value uint64) { *(*uint64)(unsafe.Pointer(at + offset)) = value }

// recRoom hands out a chunk, or what an ended goroutine left of one.
func recRoom(units uintptr) (at, to uintptr) {
	h := recHead()
	for recOn {
		if atomic.Load(&h.Stop) != 0 {
			recStop(logFullChunks)
			break
		}
		recLock(&recLists.lock)
		if n := recLists.rests; n > 0 {
			recLists.rests = n - 1
			r := recRestAt(n - 1)
			if at, to = r.at, r.to; at+units*logUnitSize <= to {
				recUnlock(&recLists.lock)
				return at, to
			}
			recWord(at, 0, uint64(logPad))
			recUnlock(&recLists.lock)
			continue
		}
		slot, ok := recSlot(h)
		if ok && !rec.reads && slot%recAhead == 0 && !recHasRoom(slot) {
			recUnlock(&recLists.lock)
			recStop(logFullDisk)
			break
		}
		if ok {
			n := h.Announced
			*(*uint32)(unsafe.Pointer(rec.announce + uintptr(n%rec.chunks)*4)) = slot + 1
			atomic.Store(&h.Announced, n+1)
			ahead := n - atomic.Load(&h.Freed) - recLists.living
			recUnlock(&recLists.lock)
			if rec.reads && int32(ahead) > recPaced {
				usleep((ahead - recPaced) / 64) // rather slower than standing still for long
			}
			at = rec.units + uintptr(slot)*logChunkSize
			return at, at + logChunkSize
		}
		recUnlock(&recLists.lock)
		if !rec.reads {
			recStop(logFullChunks)
			break
		}
		usleep(200)
	}
	return 0, 0
}

// recHasRoom finds room on the disk for the chunks from one on: a program that writes to a full disk would be killed. Where the
// system doesn't know this call, there may be room.
func recHasRoom(chunk uint32) bool {
	n := rec.chunks - chunk
	if n > recAhead {
		n = recAhead
	}
	at := alignDown(rec.units+uintptr(chunk)*logChunkSize, logPageSize)
	failed := int(recSyscall(recSysAdvise, at, uintptr(n)*logChunkSize, recPopulate, 0, 0, 0))
	return failed == 0 || failed == -recUnknown
}

// recSlot is where the next chunk lies: where one lay that was given back, or in new memory. If somebody reads along, the program
// gets only so far ahead of him; each goroutine may hold a chunk besides.
func recSlot(h *logHeader) (slot uint32, ok bool) {
	l := &recLists
	freed := atomic.Load(&h.Freed)
	if freed != l.reused {
		slot = *(*uint32)(unsafe.Pointer(rec.free + uintptr(l.reused%rec.chunks)*4))
		l.reused++
		return slot, true
	}
	if l.fresh == rec.chunks || rec.reads && h.Announced-freed >= recUnread+l.living {
		return 0, false
	}
	l.fresh++
	return l.fresh - 1, true
}

func recMix(h uint64, pc uintptr) uint64 {
	h = (h ^ uint64(pc)) * 0x9E3779B97F4A7C15
	return h ^ h>>29
}

// recCalls is the hash of the calls on a goroutine's shadow stack.
func recCalls(t *recThread) uint64 {
	f := (*recFrame)(unsafe.Pointer(t.top))
	if f.known != 0 {
		return f.hash
	}
	at := t.top
	for (*recFrame)(unsafe.Pointer(at)).known == 0 {
		at -= recFrameSize
	}
	h := (*recFrame)(unsafe.Pointer(at)).hash
	deep, last := uintptr(recDeep), uintptr(recLast)
	if recHead().Words > logStackWords/4 {
		deep, last = recLastIfMany, recLastIfMany // there are too many stacks to tell them all apart
	}
	for at != t.top {
		at += recFrameSize
		f = (*recFrame)(unsafe.Pointer(at))
		if at-t.base > deep*recFrameSize {
			h = recLastCalls(at, last)
		} else {
			h = recMix(h, f.pc)
		}
		f.hash, f.known = h, 1
	}
	return h
}

// recLastCalls is the hash of the innermost calls alone: deep recursion would have a stack of its own at each depth.
func recLastCalls(at, n uintptr) (h uint64) {
	for i := n; i > 0; i-- {
		h = recMix(h, (*recFrame)(unsafe.Pointer(at-(i-1)*recFrameSize)).pc)
	}
	return h
}

// recDrop drops the calls that a panic has ended: those below a depth.
func recDrop(t *recThread, depth uint32) {
	for (*recFrame)(unsafe.Pointer(t.top)).depth > depth {
		t.top -= recFrameSize
	}
}

// recInner are the innermost calls of a stack, which the shadow stack hasn't.
type recInner struct {
	n   int
	key uint64
	pcs [8]uintptr
}

// recWalk finds by frame pointers the calls between a hook and the innermost function that told its entry. fp is the
// frame pointer of the hook.
func recWalk(t *recThread, fp uintptr, in *recInner) {
	high := getg().stack.hi
	in.n = 0
	for in.n < len(in.pcs) && fp != 0 && fp < high-16 {
		in.pcs[in.n] = *(*uintptr)(unsafe.Pointer(fp + 8))
		in.n++
		depth := uint32(high - (fp + 16))
		recDrop(t, depth)
		if (*recFrame)(unsafe.Pointer(t.top)).depth == depth {
			break
		}
		next := *(*uintptr)(unsafe.Pointer(fp))
		if next <= fp {
			break
		}
		fp = next
	}
	key := recCalls(t)
	for i := in.n - 1; i >= 0; i-- {
		key = recMix(key, in.pcs[i])
	}
	in.key = key | 1
}

// recHere is the site of a hook that stands in a function that doesn't tell its entry.
func recHere(t *recThread, fp uintptr) uint32 {
	var in recInner
	recWalk(t, fp, &in)
	p := &t.places[in.key>>(64-recPlaceBits)]
	if p.key != in.key {
		p.key, p.site = in.key, recSite(t, &in)
	}
	return p.site
}

// recSite numbers a stack.
func recSite(t *recThread, in *recInner) uint32 {
	if i := recProbe(t, in, uint32(in.key>>40)&(recDense-1), recDense-1); i != 0 {
		return i
	}
	return recProbe(t, in, recDense+uint32(in.key>>32)%(recSites-recDense), recSites-1)
}

// recProbe looks for a stack's number from one on. 0 is none.
func recProbe(t *recThread, in *recInner, i, last uint32) uint32 {
	for probes := 0; probes < 32; probes++ {
		slot := (*uint64)(unsafe.Pointer(rec.keys + uintptr(i)*8))
		k := atomic.Load64(slot)
		if k == 0 && i != 0 {
			if atomic.Cas64(slot, 0, in.key) {
				recTellStack(t, in, i)
				return i
			}
			k = atomic.Load64(slot)
		}
		if k == in.key {
			return i
		}
		if i++; i > last {
			return 0
		}
	}
	return 0
}

// recTellStack writes the calls of a site.
func recTellStack(t *recThread, in *recInner, site uint32) {
	outer := int((t.top - t.base) / recFrameSize)
	if outer > recDeepest {
		outer = recDeepest
	}
	n := uint64(in.n + outer)
	at := atomic.Xadd64(&recHead().Words, int64(n)+1) - n - 1
	if at+n+1 > logStackWords {
		return
	}
	w := rec.words + uintptr(at)*8
	recWord(w, 0, n)
	for i := 0; i < in.n; i++ {
		recWord(w, 8+8*uintptr(i), uint64(in.pcs[i]))
	}
	for i := 0; i < outer; i++ {
		f := (*recFrame)(unsafe.Pointer(t.top - uintptr(i)*recFrameSize))
		recWord(w, 8+8*uintptr(in.n+i), uint64(f.pc))
	}
	atomic.Store((*uint32)(unsafe.Pointer(rec.sites+uintptr(site)*4)), uint32(at)+1)
}

// recMomentOf is the moment of an access at a stack: the last one there, if the goroutine has made no step since, else a new
// one.
func recMomentOf(t *recThread, in *recInner) *recMoment {
	h := recHead()
	if h.Segment != t.segment {
		recBegin(t, h.Segment)
	}
	m := recRemembered(t, in.key)
	if m.stamp == t.stamp {
		if m.key == in.key {
			return m
		}
		if other := recNeighbour(t, in.key); other.stamp != t.stamp {
			m = other // so that two places of a loop don't take one slot in turn
		}
	}
	recTellRun(t, &m.run)
	if m.key != in.key {
		m.key, m.site = in.key, recSite(t, in)
	}
	if t.moment == t.momentsEnd {
		first := atomic.Xadd(&h.Moments, recBlock) // after 2^32 they begin anew: those in use are far younger
		t.moment, t.momentsEnd, t.epoch = first, first+recBlock, first
	}
	id := t.moment
	t.moment++
	at := recMomentAt(id)
	recWord(at, 0, 0) // who reads it meanwhile sees that it changes
	recWord(at, 8, atomic.Load64(&h.Seq)|uint64(t.me-1)<<40)
	recWord(at, 0, uint64(logMoment)|uint64(m.site)<<8|uint64(id)<<32)
	m.stamp, m.run.id = t.stamp, id
	return m
}

// recRemembered is where the last moment at a stack is remembered, or may be: each stack has two slots.
func recRemembered(t *recThread, key uint64) *recMoment {
	m := &t.moments[key>>(64-recMomentBits)]
	if m.key != key {
		if other := recNeighbour(t, key); other.key == key {
			return other
		}
	}
	return m
}

func recNeighbour(t *recThread, key uint64) *recMoment { return &t.moments[key>>(64-recMomentBits)^1] }

// recBegin says that a goroutine comes to a segment.
func recBegin(t *recThread, segment uint32) {
	t.segment, t.told = segment, (segment%3+1)<<30
	t.stamp++
}

// recMomentAt is where a moment stands until it is told: its record, as it will be in the log. One that was told has no op.
func recMomentAt(id uint32) uintptr { return rec.moments + uintptr(id%recMoments)*logUnitSize }

// recTellMoment writes the record of a moment, if the log doesn't have it. It reports false for one that is so old that
// nobody knows it any more.
func recTellMoment(t *recThread, id uint32) bool {
	from := recMomentAt(id)
	slot := (*uint64)(unsafe.Pointer(from))
	first := atomic.Load64(slot)
	second := atomic.Load64((*uint64)(unsafe.Pointer(from + 8)))
	if uint32(first>>32) != id || uint32(atomic.Load64(slot)>>32) != id {
		return false // a later moment has its place, or takes it just now
	}
	if first&0xff == 0 {
		return true
	}
	at := recPut(t, 1) // this may sleep
	if at == 0 {
		return false
	}
	recWord(at, 8, second)
	recWord(at, 0, first)
	atomic.Cas64(slot, first, first&^0xff)
	return true
}
