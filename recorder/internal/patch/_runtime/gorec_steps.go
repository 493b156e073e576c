// Steps: all that orders. Each takes the next number while what it is about can't change, so the numbers are an order in
// which all of them happened.

//go:build race

package runtime

import (
	"internal/abi"
	"runtime/internal/atomic"
	"unsafe"
)

// recStepOf is a step before it is written.
type recStepOf struct {
	op          logOp
	aux         uint8
	addr        uintptr
	fp          uintptr // the hook's frame pointer, by which the site is found; 0: site has it
	site, other uint32
	value       uint64
	elem, last  uint64     // of a step with a third unit
	with        *recThread // whose step it is, too
}

// recReleasing has the steps after which what the goroutine repeats is told anew. Edge is another one.
const recReleasing uint64 = 1<<logGo | 1<<logExit | 1<<logRelease | 1<<logReleaseMerge | 1<<logReleaseAcquire |
	1<<logAtomicStore | 1<<logAtomicRMW | 1<<logSend | 1<<logReceive | 1<<logMeet | 1<<logClose |
	1<<logUnlock | 1<<logRUnlock | 1<<logWUnlock | 1<<logOnceBegin | 1<<logOnceEnd

// recOften is after how many steps of all goroutines any step of one has it tell anew what it repeats: the segment in which it was
// told may be over.
const recOften = 1 << 12

// recDo writes a step of the running goroutine.
func recDo(t *recThread, s *recStepOf) {
	recCall(abi.FuncPCABIInternal(recDoHere), t, uintptr(unsafe.Pointer(s)), 0, 0, 0)
}

func recDoHere(t *recThread, step uintptr) {
	s := (*recStepOf)(unsafe.Pointer(step))
	if s.fp != 0 {
		s.site = recHere(t, s.fp)
	}
	recStep(t, s)
	recSwitch(t)
}

// recStep writes a step into the log of a goroutine, and answers its number.
func recStep(t *recThread, s *recStepOf) uint64 {
	if recHasPending(t) {
		recTellPending(t, t)
	}
	gen, units := recObject(s.addr), uintptr(2)
	switch s.op {
	case logSend, logReceive, logMeet, logEdge:
		units = 3
	}
	at := recPut(t, units)
	if at == 0 {
		return 0
	}
	seq := atomic.Xadd64(&recHead().Seq, 1)
	recWord(at, 8, seq|uint64(gen)<<48)
	recWord(at, 16, uint64(s.site)|uint64(s.other)<<24)
	recWord(at, 24, s.value)
	if units == 3 {
		recWord(at, 32, s.elem)
		recWord(at, 40, s.last)
	}
	recWord(at, 0, uint64(s.op)|uint64(s.aux)<<8|uint64(s.addr)<<16)
	releases := s.op == logEdge || recReleasing>>s.op&1 != 0 || seq-t.renewed > recOften
	if recPass(t, releases); releases {
		t.renewed = seq
	}
	if s.with != nil {
		recPass(s.with, releases)
	}
	return seq
}

// recPass says that a goroutine has made a step: its moments are over, and, if the step releases, so are repetitions.
func recPass(t *recThread, releases bool) {
	t.stamp++
	if releases {
		t.epoch = t.moment
		recNewTag(t)
	}
}

// recNewTag gives a goroutine another tag, which is odd and not 1. That another goroutine has the same at the same word is as
// rare as one in 16,000.
func recNewTag(t *recThread) {
	tag := (t.stamp*0x9E3779B1^t.me*0x85EBCA6B)>>17 | 1
	if tag == 1 {
		tag = 3
	}
	t.tags = tag | tag<<recTagBits
}

// recObject is the generation of what synchronizes at an address. From now on the memory is shared, so that its next use
// counts as another object.
func recObject(addr uintptr) uint16 {
	c := recCellOf(addr)
	if c == nil {
		return 0
	}
	if atomic.Load(&c.owner) == 0 {
		atomic.Cas(&c.owner, 0, recShared)
	}
	return c.gen
}

// recSwitch lets another goroutine run now and then, if the log asks for that.
func recSwitch(t *recThread) {
	seed := recHead().Seed
	if seed == 0 {
		return
	}
	if t.random == 0 {
		t.random = (seed ^ t.me*0x9E3779B9) | 1
	}
	x := t.random
	x ^= x << 13
	x ^= x >> 17
	x ^= x << 5
	t.random = x
	if gp := getg(); x&7 == 0 && gp == gp.m.curg {
		gp.preempt = true
		gp.stackguard0 = stackPreempt
	}
}

// RecOp tells of an operation on a lock or a once.
func RecOp(op uintptr, addr unsafe.Pointer) {
	if t := recContext(); t != nil && recOn && t.ignore == 0 {
		recDo(t, &recStepOf{op: logOp(op), addr: uintptr(addr), fp: recFP()})
	}
}

// RecLabel names the running goroutine.
func RecLabel(name string) {
	t := recContext()
	if t == nil || !recOn {
		return
	}
	n := uintptr(len(name))
	if n > 255 {
		n = 255
	}
	at := recPut(t, 1+(n+15)/16)
	if at == 0 {
		return
	}
	for i := uintptr(0); i < n; i++ {
		*(*byte)(unsafe.Pointer(at + logUnitSize + i)) = name[i]
	}
	recWord(at, 8, 0)
	recWord(at, 0, uint64(logLabel)|uint64(n)<<8)
}

// ---- goroutines

func recNewThread() *recThread {
	recLock(&recLists.lock)
	at := recLists.freed
	if at != 0 {
		recLists.freed = (*recThread)(unsafe.Pointer(at)).next
	} else if recLists.threads < recMostThreads {
		at = rec.threads + uintptr(recLists.threads)*recThreadSize
		recLists.threads++
	}
	if at != 0 {
		recLists.living++
	}
	recUnlock(&recLists.lock)
	if at == 0 {
		return nil
	}
	t := (*recThread)(unsafe.Pointer(at))
	t.base = at + unsafe.Sizeof(*t)
	t.end = at + recThreadSize
	t.top = t.base
	f := (*recFrame)(unsafe.Pointer(t.base))
	f.pc, f.hash, f.depth, f.known = 0, 0x51ed270b, 0, 1
	t.at, t.to, t.stint = 0, 0, 0
	t.ignore, t.waits, t.random, t.pending = 0, 0, 0, 0
	t.sharedWrites.n, t.sharedReads.n = 0, 0
	recBegin(t, recHead().Segment) // of an earlier goroutine nothing counts
	t.moment, t.momentsEnd, t.epoch = 0, 0, 0
	for i := range t.accesses {
		t.accesses[i].word = 0
	}
	for i := range t.moments {
		m := &t.moments[i]
		m.run.n, m.run.at, m.listed = 0, 0, false
	}
	id := atomic.Xadd(&recHead().Goroutines, 1) - 1
	if id >= 1<<24-2 {
		recStop(logFullNumbers)
	}
	t.me = id + 1
	recNewTag(t)
	return t
}

func rec_go_start(parent, child, pc, _ uintptr) {
	at := (*uintptr)(unsafe.Pointer(child))
	*at = 0
	if rec.log == 0 {
		return
	}
	isBoot := parent == 0
	if isBoot {
		parent = rec.boot
	}
	p, t := (*recThread)(unsafe.Pointer(parent)), recNewThread()
	if t == nil {
		recStop(logFullNumbers)
		return
	}
	*at = uintptr(unsafe.Pointer(t))
	if !recOn {
		return
	}
	if isBoot {
		recLock(&recLists.boot)
	}
	in := recInner{n: 1, key: recMix(recCalls(p), pc) | 1}
	in.pcs[0] = pc
	recStep(p, &recStepOf{op: logGo, site: recSite(p, &in), other: t.me - 1})
	if isBoot {
		recUnlock(&recLists.boot)
	}
}

func rec_go_end(thread, _, _, _ uintptr) {
	if thread == 0 {
		return
	}
	t := (*recThread)(unsafe.Pointer(thread))
	if recOn {
		recStep(t, &recStepOf{op: logExit})
	}
	recLock(&recLists.lock)
	if n := recLists.rests; t.at != 0 && t.at+8*logUnitSize <= t.to && n < recMostRest {
		*recRestAt(n) = recRest{t.at, t.to}
		recLists.rests = n + 1
	} else {
		recLeave(t)
	}
	t.next = recLists.freed
	recLists.freed = thread
	recLists.living--
	recUnlock(&recLists.lock)
}

func rec_finalizer_goroutine(thread, _, _, _ uintptr) {
	if t := (*recThread)(unsafe.Pointer(thread)); t != nil && recOn {
		recStep(t, &recStepOf{op: logFinalizer})
	}
}

// ---- what the library tells as orders

func recOrder(thread, addr, fp uintptr, op logOp) {
	t := (*recThread)(unsafe.Pointer(thread))
	if t == nil || !recOn || t.ignore != 0 {
		return
	}
	s := recStepOf{op: op, addr: addr, fp: fp}
	if thread == getg().racectx {
		recDo(t, &s)
	} else {
		recStep(t, &s) // for another goroutine, or for timers
	}
}

func rec_acquire(t, addr, _, _ uintptr) { recOrder(t, addr, recFP(), logAcquire) }

func rec_release(t, addr, _, _ uintptr) { recOrder(t, addr, recFP(), logRelease) }

func rec_release_merge(t, addr, _, _ uintptr) { recOrder(t, addr, recFP(), logReleaseMerge) }

func rec_release_acquire(t, addr, _, _ uintptr) { recOrder(t, addr, recFP(), logReleaseAcquire) }

// ---- channels, with their lock held

// recOfChannel notes what a step does with a channel. An element that has at most eight bytes and no pointers has a value.
func recOfChannel(s *recStepOf, c *hchan, elem unsafe.Pointer) {
	s.addr = uintptr(unsafe.Pointer(&c.buf))
	s.value = uint64(uint32(c.dataqsiz))<<32 | uint64(uint32(c.qcount))
	if s.op != logSend && s.op != logReceive && s.op != logMeet ||
		elem == nil && c.elemsize != 0 || c.elemsize > 8 || c.elemtype.ptrdata != 0 {
		return
	}
	for i := uintptr(0); i < uintptr(c.elemsize); i++ {
		s.elem |= uint64(*(*byte)(add(elem, i))) << (8 * i)
	}
	s.last |= 1
}

func recChan(op logOp, c *hchan, elem unsafe.Pointer) {
	if t := recContext(); t != nil && recOn {
		s := recStepOf{op: op, fp: recFP()}
		recOfChannel(&s, c, elem)
		recDo(t, &s)
	}
}

// recWaiting is the context of a goroutine that waits for the running one, nil where nothing is told.
func recWaiting(gp *g) *recThread {
	if recContext() == nil || !recOn {
		return nil
	}
	return (*recThread)(unsafe.Pointer(gp.racectx))
}

// recChanFor tells of an operation of a goroutine that waits.
func recChanFor(op logOp, c *hchan, elem unsafe.Pointer, gp *g) {
	if other := recWaiting(gp); other != nil {
		s := recStepOf{op: op, site: other.waits, other: other.me, with: other}
		recOfChannel(&s, c, elem)
		recDo(recContext(), &s)
	}
}

// recMeet tells of a send and a receive that happen together: the running goroutine's, and that of one that waits. sends: the
// running one sends.
func recMeet(c *hchan, elem unsafe.Pointer, gp *g, sends bool) {
	if other := recWaiting(gp); other != nil {
		s := recStepOf{op: logMeet, other: other.me - 1, last: uint64(other.waits) << 8, with: other, fp: recFP()}
		if sends {
			s.aux = 1
		}
		recOfChannel(&s, c, elem)
		recDo(recContext(), &s)
	}
}

// recEdge: what this goroutine did comes before what gp will do.
func recEdge(l unsafe.Pointer, gp *g) {
	if other := recWaiting(gp); other != nil {
		recDo(recContext(), &recStepOf{op: logEdge, addr: uintptr(l), other: other.me - 1, last: uint64(other.waits) << 8,
			with: other, fp: recFP()})
	}
}

// recWait notes where the running goroutine waits.
func recWait() {
	if t := recContext(); t != nil && recOn {
		recCall(abi.FuncPCABIInternal(recWaitAt), t, recFP(), 0, 0, 0)
	}
}

func recWaitAt(t *recThread, fp uintptr) {
	t.waits = recHere(t, fp)
	recTellPending(t, t)
}

// recDefault tells of a default of a select of several cases, then of these. They have the number of the default.
func recDefault(scases []scase, nsends int) {
	t := recContext()
	if t == nil || !recOn {
		return
	}
	s := recStepOf{op: logDefault}
	for i := range scases {
		if scases[i].c != nil {
			s.value++
		}
	}
	if s.value == 0 {
		return
	}
	s.site = recHere(t, recFP())
	seq := recStep(t, &s)
	for i := range scases {
		c := scases[i].c
		if c == nil {
			continue
		}
		s.op = logCaseReceive
		if i < nsends {
			s.op = logCaseSend
		}
		recOfChannel(&s, c, nil)
		if at := recPut(t, 2); at != 0 {
			recWord(at, 8, seq|uint64(recObject(s.addr))<<48)
			recWord(at, 16, uint64(s.site))
			recWord(at, 24, s.value)
			recWord(at, 0, uint64(s.op)|uint64(s.addr)<<16)
		}
	}
}

// ---- atomics

// recAtomicLocks: an atomic operation and its number are one, by a lock of the address.
var recAtomicLocks [4096]uint32

// The operations of package sync/atomic, as race_amd64.s names them: twice one of these, and 1 more for eight bytes.
const (
	recLoad = iota
	recStore
	recSwap
	recAdd
	recCAS
	recAnd
	recOr
)

// recAtomic does an operation of package sync/atomic. args is the stub's frame of arguments and results.
func recAtomic(operation uintptr, args unsafe.Pointer) {
	addr := *(*uintptr)(args)
	t, c := recContext(), recCellOf(addr)
	if t == nil || c == nil || !recOn || t.ignore != 0 {
		recDoAtomic(operation, args)
		return
	}
	recCall(abi.FuncPCABIInternal(recAtomicStep), t, operation, uintptr(args), recFP(), 0)
}

func recAtomicStep(t *recThread, operation, args, fp uintptr) {
	addr := *(*uintptr)(unsafe.Pointer(args))
	s := recStepOf{site: recHere(t, fp), addr: addr, aux: uint8(4 + 4*(operation&1))}
	if c := recCellOf(addr); recTake(c)&recShared == 0 {
		recShare(t, c, addr&^7)
	} else if c.w != 0 {
		c.w, c.wmask = 0, 0 // the word's last access isn't that write any more
	}
	l := &recAtomicLocks[(addr>>3*0x9E3779B1)>>20%4096]
	recLock(l)
	s.op, s.value = recDoAtomic(operation, unsafe.Pointer(args))
	recStep(t, &s)
	recUnlock(l)
	recSwitch(t)
}

// recDoAtomic does an operation, and answers its kind and the value that it found or wrote. Behind the address in the frame are
// arguments of 4 or 8 bytes, and then, where 8 begin, the result.
func recDoAtomic(operation uintptr, frame unsafe.Pointer) (op logOp, value uint64) {
	size := 4 + 4*(operation&1)
	p, first, result := *(*unsafe.Pointer)(frame), add(frame, 8), add(frame, 16)
	for {
		old := recValue(p, size)
		if operation>>1 == recLoad {
			recPutValue(first, size, old)
			return logAtomicLoad, old
		}
		now, op := recValue(first, size), logAtomicRMW
		switch operation >> 1 {
		case recStore:
			op = logAtomicStore
		case recAdd:
			now += old
		case recCAS:
			result = add(frame, 8+2*size)
			if old != now {
				*(*bool)(result) = false
				return logAtomicFail, old
			}
			now = recValue(add(first, size), size)
		case recAnd:
			now &= old
		case recOr:
			now |= old
		}
		if size == 4 {
			now = uint64(uint32(now))
		}
		if !recReplaces(p, size, old, now) {
			continue
		}
		switch operation >> 1 {
		case recStore:
		case recCAS:
			*(*bool)(result) = true
		case recAdd:
			recPutValue(result, size, now)
		default:
			recPutValue(result, size, old)
		}
		return op, now
	}
}

func recValue(p unsafe.Pointer, size uintptr) uint64 {
	if size == 4 {
		return uint64(atomic.Load((*uint32)(p)))
	}
	return atomic.Load64((*uint64)(p))
}

func recPutValue(p unsafe.Pointer, size uintptr, value uint64) {
	if size == 4 {
		*(*uint32)(p) = uint32(value)
	} else {
		*(*uint64)(p) = value
	}
}

func recReplaces(p unsafe.Pointer, size uintptr, old, now uint64) bool {
	if size == 4 {
		return atomic.Cas((*uint32)(p), uint32(old), uint32(now))
	}
	return atomic.Cas64((*uint64)(p), old, now)
}
