// Accesses: what the compiler's instrumentation calls, and the cells that tell which of them have to be written.

//go:build race

package runtime

import (
	"internal/abi"
	"runtime/internal/atomic"
	"unsafe"
)

func racefuncenter(callpc uintptr) {
	gp := getg()
	t := (*recThread)(unsafe.Pointer(gp.racectx))
	if t == nil {
		return
	}
	depth := uint32(gp.stack.hi - getcallersp())
	top := t.top
	for (*recFrame)(unsafe.Pointer(top)).depth >= depth {
		top -= recFrameSize
	}
	if top+2*recFrameSize <= t.end {
		top += recFrameSize
		f := (*recFrame)(unsafe.Pointer(top))
		f.pc, f.depth, f.known = callpc, depth, 0
	}
	t.top = top
}

func racefuncexit() {
	gp := getg()
	t := (*recThread)(unsafe.Pointer(gp.racectx))
	if t == nil {
		return
	}
	depth := uint32(gp.stack.hi - getcallersp())
	for (*recFrame)(unsafe.Pointer(t.top)).depth >= depth {
		t.top -= recFrameSize
	}
}

// raceread and racewrite are in assembly: they return if this goroutine did the same since its last step that releases, else go
// on to recSingle.
func raceread(addr uintptr)
func racewrite(addr uintptr)

// recSingle notes an access of a single word that may have to be written: with recWrites, that of a write. If the place goes on
// with a run of words that several goroutines use, there is little to do.
func recSingle(how uintptr) {
	gp, addr, write := getg(), how&^recWrites, how&recWrites != 0
	if addr-gp.stack.lo < gp.stack.hi-gp.stack.lo {
		return // nobody else uses the running stack
	}
	t, c, mask := (*recThread)(unsafe.Pointer(gp.racectx)), recCellOf(addr), uint8(1)<<(addr&7)
	if c.rmask&^mask != 0 && !write && recRepeats(t, c, addr, mask, false) {
		return
	}
	pc, depth := getcallerpc(), gp.stack.hi-getcallersp()
	f := (*recFrame)(unsafe.Pointer(t.top))
	key := recMix(f.hash, pc) | 1
	m := recRemembered(t, key)
	if m.key == key && m.stamp == t.stamp && f.known != 0 && f.depth <= uint32(depth) && recHead().Segment == t.segment &&
		(recExtendsOwn(t, c, mask, m.run.id, write) || recExtends(t, &m.run, c, addr&^7, mask, write)) {
		return
	}
	recCall(abi.FuncPCABIInternal(recSingleAt), t, how, pc, depth, 0)
}

func racereadrange(addr, size uintptr) {
	recNote(&recRange{addr: addr, size: size, pc: getcallerpc(), sp: getcallersp()})
}

func racewriterange(addr, size uintptr) {
	recNote(&recRange{addr: addr, size: size, pc: getcallerpc(), sp: getcallersp(), write: true})
}

// What package runtime itself tells, of maps, channels and copies, and programs that call runtime.RaceRead and the like: the place
// is found by frame pointers.

func racereadpc(p unsafe.Pointer, callpc, pc uintptr) { recByRuntime(uintptr(p), 1, recFP(), false) }

func racewritepc(p unsafe.Pointer, callpc, pc uintptr) { recByRuntime(uintptr(p), 1, recFP(), true) }

func racereadrangepc1(addr, size, pc uintptr) { recByRuntime(addr, size, recFP(), false) }

func racewriterangepc1(addr, size, pc uintptr) { recByRuntime(addr, size, recFP(), true) }

func RaceRead(p unsafe.Pointer) { recByRuntime(uintptr(p), 1, recFP(), false) }

func RaceWrite(p unsafe.Pointer) { recByRuntime(uintptr(p), 1, recFP(), true) }

func RaceReadRange(p unsafe.Pointer, n int) { recByRuntime(uintptr(p), uintptr(n), recFP(), false) }

func RaceWriteRange(p unsafe.Pointer, n int) { recByRuntime(uintptr(p), uintptr(n), recFP(), true) }

func recByRuntime(addr, size, fp uintptr, write bool) {
	recNote(&recRange{addr: addr, size: size, fp: fp, write: write})
}

// recRange is an access of the words of a range. fp: the frame pointer of a hook of package runtime, else 0.
type recRange struct {
	addr, size, pc, sp, fp uintptr
	write                  bool
}

// recNote notes an access of a range, unless that is within a word and repeats what the goroutine did.
func recNote(a *recRange) {
	gp := getg()
	t, c := (*recThread)(unsafe.Pointer(gp.racectx)), recCellOf(a.addr)
	if t == nil || c == nil || a.size == 0 || a.addr-gp.stack.lo < gp.stack.hi-gp.stack.lo ||
		a.addr&7+a.size <= 8 && recRepeats(t, c, a.addr, recMaskOf(a.addr, a.addr+a.size), a.write) {
		return
	}
	recCall(abi.FuncPCABIInternal(recWords), t, uintptr(unsafe.Pointer(a)), 0, 0, 0)
}

// recRepeats reports whether an access would repeat one of this goroutine's, or a read find what it wrote, with no step between
// that releases.
func recRepeats(t *recThread, c *recCell, addr uintptr, mask uint8, write bool) bool {
	if recIsNow(t, c.w) && mask&^c.wmask == 0 {
		return true
	}
	e := recToldOf(t, addr, write)
	told := e.word == addr&^7 && recIsNow(t, e.id) && mask&^e.mask == 0
	switch o := c.owner &^ recAgain; {
	case o == t.me && write:
		return c.wmask != 0 && told
	case o == t.me:
		return recIsNow(t, c.r) && mask&^c.rmask == 0 || c.rmask|c.wmask != 0 && told
	case o>>30 == recShared>>30 && !write:
		return mask&^recHasRead(t, c) == 0 || told && e.w == c.w
	}
	return false
}

// recHasRead are the bytes of a word of several goroutines that this one has read, by the tags.
func recHasRead(t *recThread, c *recCell) uint8 {
	switch {
	case c.rmask == 0:
		return 0
	case recHasTag(c.owner^t.tags, c.r^t.tags):
		return c.rmask
	case recHasTag((c.owner|recOdd)^t.tags, (c.r|recOdd)^t.tags):
		return c.rmask & -c.rmask
	}
	return 0
}

// recHasTag reports whether one of four tags is that of the goroutine, whose bits they differ in.
func recHasTag(x, y uint32) bool {
	return x&recTag == 0 || x&(recTag<<recTagBits) == 0 || y&recTag == 0 || y&(recTag<<recTagBits) == 0
}

// recToldOf is where accesses of a word may be remembered.
func recToldOf(t *recThread, addr uintptr, write bool) *recAccess {
	i := addr >> 3 << 1
	if write {
		i++
	}
	return &t.accesses[i%recAccessCache]
}

// recRemember remembers an access that was written, with others of the word.
func recRemember(t *recThread, addr uintptr, w, id uint32, mask uint8, write bool) {
	e := recToldOf(t, addr, write)
	if e.word == addr&^7 && e.w == w && recIsNow(t, e.id) {
		mask |= e.mask
	}
	e.word, e.w, e.id, e.mask = addr&^7, w, id, mask
}

// recIsNow reports whether a moment is one of this goroutine's since its last step that releases.
func recIsNow(t *recThread, id uint32) bool { return id-t.epoch < t.moment-t.epoch }

// recWrites is beside the address of an access that writes.
const recWrites = 1 << 63

// recSingleAt notes an access of a single word, on the system stack.
func recSingleAt(t *recThread, how, pc, depth uintptr) {
	addr, write := how&^recWrites, how&recWrites != 0
	c, mask := recCellOf(addr), uint8(1)<<(addr&7)
	if !recOn || recRepeats(t, c, addr, mask, write) {
		return
	}
	var in recInner
	recDirect(t, &in, pc, depth)
	m := recMomentOf(t, &in)
	if recTouch(t, c, addr, mask, m.run.id, write) {
		recObjectOf(t, c, addr)
		recTellSoon(t, m, addr&^7, mask, c.gen, write)
	}
}

// recTellSoon notes that an access has to be written: with those of other words, if such come from the same place before the
// goroutine's next step.
func recTellSoon(t *recThread, m *recMoment, word uintptr, mask uint8, gen uint16, write bool) {
	m.run.write = write
	recJoin(t, &m.run, word, mask, gen, m.run.id)
	if !m.listed {
		m.listed = true
		at := uintptr(unsafe.Pointer(m)) - uintptr(unsafe.Pointer(&t.moments))
		t.list[t.pending%recMomentCache] = uint8(at / unsafe.Sizeof(*m))
		t.pending++
	}
}

// recTellPending writes what a goroutine has put off, into the log of t.
func recTellPending(t, of *recThread) {
	for i := uint32(0); i < of.pending; i++ {
		m := &of.moments[of.list[i%recMomentCache]%recMomentCache]
		m.listed = false
		recTellRun(t, &m.run)
	}
	of.pending = 0
	recTellRun(t, &of.sharedWrites)
	recTellRun(t, &of.sharedReads)
}

// recHasPending reports whether a goroutine has put off what has to be written.
func recHasPending(t *recThread) bool { return t.pending != 0 || t.sharedWrites.n|t.sharedReads.n != 0 }

// recFinish writes what all goroutines have put off, since the program ends.
func recFinish() {
	t := recContext()
	if t == nil {
		t = (*recThread)(unsafe.Pointer(rec.boot))
	}
	if t == nil || !recOn {
		return
	}
	for i := uint32(0); i < recLists.threads; i++ {
		of := (*recThread)(unsafe.Pointer(rec.threads + uintptr(i)*recThreadSize))
		if recHasPending(of) {
			recTellPending(t, of)
		}
	}
}

// recDirect is the stack of a hook in a function that has told its entry.
func recDirect(t *recThread, in *recInner, pc, depth uintptr) {
	recDrop(t, uint32(depth))
	in.n, in.pcs[0] = 1, pc
	in.key = recMix(recCalls(t), pc) | 1
}

// recWords notes an access of the words of a range, on the system stack.
func recWords(t *recThread, args uintptr) {
	if !recOn {
		return
	}
	a := (*recRange)(unsafe.Pointer(args))
	var m *recMoment
	end := a.addr + a.size
	c := recCellOf(a.addr)
	for addr := a.addr; addr < end; addr = (addr | 7) + 1 {
		mask := recMaskOf(addr, end)
		if !recRepeats(t, c, addr, mask, a.write) {
			if m == nil {
				m = recMomentIn(t, a)
			}
			if !recExtends(t, &m.run, c, addr&^7, mask, a.write) && recTouch(t, c, addr, mask, m.run.id, a.write) {
				recObjectOf(t, c, addr)
				recTellSoon(t, m, addr&^7, mask, c.gen, a.write)
			}
		}
		c = (*recCell)(unsafe.Pointer(uintptr(unsafe.Pointer(c)) + unsafe.Sizeof(*c)))
	}
}

// recMomentIn is the moment of an access of a range.
func recMomentIn(t *recThread, a *recRange) *recMoment {
	var in recInner
	if a.fp != 0 {
		recWalk(t, a.fp, &in)
	} else {
		recDirect(t, &in, a.pc, getg().stack.hi-a.sp)
	}
	return recMomentOf(t, &in)
}

// recMaskOf are the bytes of a word from an address on up to an end.
func recMaskOf(addr, end uintptr) uint8 {
	mask := uint8(0xff) << (addr & 7)
	if last := addr | 7; end <= last {
		mask &= 0xff >> (last + 1 - end)
	}
	return mask
}

// recExtendsOwn notes an access of a word that nobody else uses, if that leaves nothing to be written.
func recExtendsOwn(t *recThread, c *recCell, mask uint8, id uint32, write bool) (noted bool) {
	o := c.owner
	if o != t.me && o != 0 || !atomic.Cas(&c.owner, o, recLocked) {
		return false
	}
	if write {
		noted = recFollows(&c.w, &c.wmask, id, mask)
	} else {
		noted = recFollows(&c.r, &c.rmask, id, mask)
	}
	if noted {
		o = t.me
	}
	c.owner = o
	return noted
}

// recExtends notes an access of a word, if several goroutines use that, its object is told, and a run goes on with it.
func recExtends(t *recThread, run *recRun, c *recCell, word uintptr, mask uint8, write bool) bool {
	if c.owner>>30 != recShared>>30 || c.r&^recTags != t.told || c.gen != run.gen || !recGoesOn(run, word, mask) {
		return false
	}
	recTouchShared(t, c, mask, run.id, write)
	return true
}

// recGoesOn adds an access to a run, if it is about more of its last word, or about the next one.
func recGoesOn(run *recRun, word uintptr, mask uint8) bool {
	if word == run.at {
		run.last |= mask
		return true
	}
	if word != run.at+run.step || run.n > 1 && run.last != run.mask || run.n == recLongest {
		return false
	}
	run.at, run.mask, run.last = word, run.last, mask
	run.n++
	return true
}

// recJoin adds an access to a run, or writes that, and begins another one.
func recJoin(t *recThread, run *recRun, word uintptr, mask uint8, gen uint16, id uint32) {
	if run.n != 0 && gen == run.gen && id == run.id {
		if run.n == 1 && word == run.at-8 {
			run.step = ^uintptr(7) // -8
		}
		if recGoesOn(run, word, mask) {
			return
		}
	}
	recTellRun(t, run)
	run.at, run.step, run.n, run.id, run.gen, run.last = word, 8, 1, id, gen, mask
}

// recTellRun writes a run, if there is one.
func recTellRun(t *recThread, run *recRun) {
	n, at := uintptr(run.n), run.at
	if n == 0 {
		return
	}
	run.n, run.at = 0, 0
	if n > 1 && run.last != run.mask {
		recTell(t, at, 1, run.last, run.gen, run.id, run.write)
		n, at = n-1, at-run.step
	}
	mask := run.mask
	if n == 1 {
		mask = run.last
	}
	if run.step == 8 {
		at -= 8 * (n - 1)
	}
	recTell(t, at, n, mask, run.gen, run.id, run.write)
}

// recTell writes an access.
func recTell(t *recThread, addr, n uintptr, mask uint8, gen uint16, id uint32, write bool) {
	if !recTellMoment(t, id) {
		return
	}
	at := recPut(t, 1)
	if at == 0 {
		return
	}
	op := logRead
	if write {
		op = logWrite
	}
	recWord(at, 8, uint64(id)|uint64(gen)<<32|uint64(n)<<48)
	recWord(at, 0, uint64(op)|uint64(mask)<<8|uint64(addr>>3)<<16)
}

// recObjectOf tells the heap object that a word is in, which several goroutines use, unless this segment has it.
func recObjectOf(t *recThread, c *recCell, addr uintptr) {
	if c.r&^recTags == t.told {
		return
	}
	c.r = c.r&recTags | t.told
	if !recIsHeap(addr) {
		return
	}
	base, span, _ := findObject(addr, 0, 0)
	if base == 0 {
		return
	}
	typ := recTypeAt(base)
	now := (t.segment%15 + 1) << recSegmentShift
	of := *typ & (1<<recSegmentShift - 1)
	if *typ == of|now {
		return
	}
	*typ = of | now
	at := recPut(t, 2)
	if at == 0 {
		return
	}
	pad := uintptr(of >> recPadShift)
	recWord(at, 8, uint64(span.elemsize-pad))
	recWord(at, 16, uint64(of&recTypeOf)<<3)
	recWord(at, 24, atomic.Load64(&recHead().Seq))
	recWord(at, 0, uint64(logObject)|uint64(base+pad)<<16)
}

// recTouch notes an access in the cell of a word, and reports whether it has to be written.
func recTouch(t *recThread, c *recCell, addr uintptr, mask uint8, id uint32, write bool) bool {
	switch o := recTake(c); {
	case o == 0 || o == t.me || o == t.me|recAgain && mask == c.wmask:
		recOwn(t, c, addr&^7, mask, id, write)
		c.owner = o | t.me // lets go: nothing that comes before a store comes after it on this processor
		return false
	case o&recShared == 0:
		recShare(t, c, addr&^7)
	case o == recShared && mask == c.wmask && recIsMine(t, c) && atomic.Cas(&c.owner, o, recLocked):
		c.r, c.rmask = 0, 0
		recOwn(t, c, addr&^7, mask, id, write)
		c.owner = t.me | recAgain
		return false
	}
	if !write {
		recRemember(t, addr, c.w, id, mask, false)
	}
	recTouchShared(t, c, mask, id, write)
	return true
}

// recIsMine reports whether the last access of a word that several goroutines use was a write of this one's. That was written, so
// all that others did before is compared with it: what the goroutine does next needn't be, up to where another one comes.
func recIsMine(t *recThread, c *recCell) bool {
	if c.w == 0 || c.rmask != 0 {
		return false
	}
	m := recMomentAt(c.w)
	return *(*uint32)(unsafe.Pointer(m + 4)) == c.w && uint32(*(*uint64)(unsafe.Pointer(m + 8))>>40) == t.me-1
}

// recTake locks a cell that isn't shared. It answers its owner.
func recTake(c *recCell) (owner uint32) {
	for turns := 0; ; turns++ {
		o := atomic.Load(&c.owner)
		if o == recLocked {
			recSpin(turns)
		} else if o&recShared != 0 || atomic.Cas(&c.owner, o, recLocked) {
			return o
		}
	}
}

// recTouchShared notes an access in the cell of a word that several goroutines use.
func recTouchShared(t *recThread, c *recCell, mask uint8, id uint32, write bool) {
	if write {
		if c.w == id {
			mask |= c.wmask // of parts that one place writes one after the other
		}
		c.w, c.wmask = id, mask
		c.r, c.rmask, c.owner = c.r&^recTags, 0, recShared
		return
	}
	x, y, tag := c.owner, c.r, t.tags&recTag
	if mask != c.rmask {
		mask |= recHasRead(t, c)
		switch mask {
		case c.rmask:
		case c.rmask & -c.rmask:
			tag-- // even: it has read the first byte alone
		default:
			c.rmask = mask // the others have read other bytes: they are forgotten
			x, y = recShared, y&^recTags
		}
	}
	c.r = y&^recTags | (y<<recTagBits|x>>recTagBits&recTag)&recTags
	c.owner = recShared | (x<<recTagBits|tag)&recTags
}

// recOwn notes an access of the only goroutine that uses a word. What an earlier one was about and this one isn't is written.
func recOwn(t *recThread, c *recCell, addr uintptr, mask uint8, id uint32, write bool) {
	switch {
	case write && !recFollows(&c.w, &c.wmask, id, mask):
		t.sharedWrites.write = true
		recJoin(t, &t.sharedWrites, addr, c.wmask, c.gen, c.w)
		recRemember(t, addr, 0, c.w, c.wmask, true)
		c.w, c.wmask = id, mask
	case !write && !recFollows(&c.r, &c.rmask, id, mask):
		recJoin(t, &t.sharedReads, addr, c.rmask, c.gen, c.r)
		recRemember(t, addr, 0, c.r, c.rmask, false)
		c.r, c.rmask = id, mask
	}
}

// recFollows has an access come in the place of a word's last one of its kind, unless that was about other bytes too, at another
// moment.
func recFollows(last *uint32, bytes *uint8, id uint32, mask uint8) bool {
	if *last == id {
		mask |= *bytes
	} else if *bytes&^mask != 0 {
		return false
	}
	*last, *bytes = id, mask
	return true
}

// recShare writes what the only goroutine that used a word did with it, since another one comes. The cell is locked, and is
// shared from now on.
func recShare(t *recThread, c *recCell, addr uintptr) {
	if c.rmask != 0 {
		recJoin(t, &t.sharedReads, addr, c.rmask, c.gen, c.r)
	}
	if c.wmask != 0 {
		t.sharedWrites.write = true
		recJoin(t, &t.sharedWrites, addr, c.wmask, c.gen, c.w)
	}
	c.w, c.r, c.wmask, c.rmask = 0, 0, 0, 0
	c.owner = recShared
}
