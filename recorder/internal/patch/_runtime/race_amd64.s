// The stubs of package sync/atomic, and what Go can't say, for the hooks of gorec.

//go:build race

#include "go_asm.h"
#include "funcdata.h"
#include "textflag.h"

// func recFP() uintptr
TEXT runtime·recFP<ABIInternal>(SB), NOSPLIT|NOFRAME, $0-8
	MOVQ	BP, AX
	RET

// func recCall(code uintptr, t *recThread, a, b, c, d uintptr)
TEXT runtime·recCall<ABIInternal>(SB), NOSPLIT|NOFRAME, $0-48
	MOVQ	g_m(R14), R12
	MOVQ	m_g0(R12), R12
	MOVQ	SP, R13
	CMPQ	R12, R14
	JEQ	call
	MOVQ	(g_sched+gobuf_sp)(R12), SP
call:
	SUBQ	$64, SP
	ANDQ	$~15, SP
	MOVQ	R13, 48(SP)
	MOVQ	AX, R12
	MOVQ	BX, AX
	MOVQ	CX, BX
	MOVQ	DI, CX
	MOVQ	SI, DI
	MOVQ	R8, SI
	CALL	R12
	MOVQ	48(SP), SP
	RET

// func recSyscall(number, a, b, c, d, e, f uintptr) uintptr
TEXT runtime·recSyscall(SB), NOSPLIT, $0-64
	MOVQ	number+0(FP), AX
	MOVQ	a+8(FP), DI
	MOVQ	b+16(FP), SI
	MOVQ	c+24(FP), DX
	MOVQ	d+32(FP), R10
	MOVQ	e+40(FP), R8
	MOVQ	f+48(FP), R9
	SYSCALL
	MOVQ	AX, ret+56(FP)
	RET

// What goroutine DX and the cell BX of an address in AX are, and in CX which of the cell's bytes. What has none returns.
#define CELL	\
	MOVQ	g_racectx(R14), DX;	\
	TESTQ	DX, DX;	\
	JEQ	done;	\
	MOVQ	AX, CX;	\
	MOVQ	AX, BX;	\
	SHRQ	$const_recHeapBits, CX;	\
	ANDQ	$~7, BX;	\
	ADDQ	BX, BX;	\
	CMPQ	CX, $(const_recHeap>>const_recHeapBits);	\
	JEQ	found;	\
	MOVQ	AX, CX;	\
	MOVQ	runtime·racedataend(SB), SI;	\
	SUBQ	runtime·racedatastart(SB), CX;	\
	SUBQ	runtime·racedatastart(SB), SI;	\
	CMPQ	CX, SI;	\
	JCC	done;	\
	ADDQ	runtime·recData(SB), BX;	\
found:	\
	MOVL	AX, CX;	\
	ANDL	$7, CX

// Returns if the goroutine has written this byte since its last step that releases: recIsNow of w.
#define WRITTEN	\
	MOVL	recCell_w(BX), SI;	\
	MOVL	recThread_epoch(DX), DI;	\
	MOVL	recThread_moment(DX), R8;	\
	SUBL	DI, SI;	\
	SUBL	DI, R8;	\
	CMPL	SI, R8;	\
	JCC	other;	\
	MOVBLZX	recCell_wmask(BX), SI;	\
	BTL	CX, SI;	\
	JCS	done;	\
other:

// func raceread(addr uintptr)
TEXT runtime·raceread<ABIInternal>(SB), NOSPLIT|NOFRAME, $0-8
	CELL
	WRITTEN
	MOVBLZX	recCell_rmask(BX), SI
	BTL	CX, SI
	JCC	miss
	MOVL	recCell_owner(BX), R9
	MOVL	recCell_r(BX), R10
	CMPL	R9, recThread_me(DX)
	JEQ	own
	MOVL	R9, R11
	SHRL	$30, R11
	CMPL	R11, $(const_recShared>>30)
	JNE	miss
	MOVL	recThread_tags(DX), R11
	XORL	R11, R9
	TESTL	$const_recTag, R9
	JEQ	done
	TESTL	$(const_recTag<<const_recTagBits), R9
	JEQ	done
	XORL	R11, R10
	TESTL	$const_recTag, R10
	JEQ	done
	TESTL	$(const_recTag<<const_recTagBits), R10
	JNE	miss
done:
	RET
own:
	SUBL	DI, R10
	CMPL	R10, R8
	JCS	done
miss:
	JMP	runtime·recSingle<ABIInternal>(SB)

// func racewrite(addr uintptr)
TEXT runtime·racewrite<ABIInternal>(SB), NOSPLIT|NOFRAME, $0-8
	CELL
	WRITTEN
	BTSQ	$63, AX
	JMP	runtime·recSingle<ABIInternal>(SB)
done:
	RET

// An operation of package sync/atomic. A nil pointer faults here, in a function of that package. AX, BX: the arguments of
// recAtomic, whose own stack space is in the frame.
#define ATOMIC(name, operation, arguments)	\
TEXT name(SB), NOSPLIT, $24-arguments;	\
	GO_ARGS;	\
	MOVQ	addr+0(FP), CX;	\
	TESTB	AX, (CX);	\
	MOVQ	$operation, AX;	\
	LEAQ	addr+0(FP), BX;	\
	CALL	runtime·recAtomic<ABIInternal>(SB);	\
	RET

ATOMIC(sync∕atomic·LoadInt32, 0, 12)
ATOMIC(sync∕atomic·LoadUint32, 0, 12)
ATOMIC(sync∕atomic·LoadInt64, 1, 16)
ATOMIC(sync∕atomic·LoadUint64, 1, 16)
ATOMIC(sync∕atomic·LoadUintptr, 1, 16)
ATOMIC(sync∕atomic·LoadPointer, 1, 16)

ATOMIC(sync∕atomic·StoreInt32, 2, 12)
ATOMIC(sync∕atomic·StoreUint32, 2, 12)
ATOMIC(sync∕atomic·StoreInt64, 3, 16)
ATOMIC(sync∕atomic·StoreUint64, 3, 16)
ATOMIC(sync∕atomic·StoreUintptr, 3, 16)

ATOMIC(sync∕atomic·SwapInt32, 4, 20)
ATOMIC(sync∕atomic·SwapUint32, 4, 20)
ATOMIC(sync∕atomic·SwapInt64, 5, 24)
ATOMIC(sync∕atomic·SwapUint64, 5, 24)
ATOMIC(sync∕atomic·SwapUintptr, 5, 24)

ATOMIC(sync∕atomic·AddInt32, 6, 20)
ATOMIC(sync∕atomic·AddUint32, 6, 20)
ATOMIC(sync∕atomic·AddInt64, 7, 24)
ATOMIC(sync∕atomic·AddUint64, 7, 24)
ATOMIC(sync∕atomic·AddUintptr, 7, 24)

ATOMIC(sync∕atomic·CompareAndSwapInt32, 8, 17)
ATOMIC(sync∕atomic·CompareAndSwapUint32, 8, 17)
ATOMIC(sync∕atomic·CompareAndSwapInt64, 9, 25)
ATOMIC(sync∕atomic·CompareAndSwapUint64, 9, 25)
ATOMIC(sync∕atomic·CompareAndSwapUintptr, 9, 25)

// From Go 1.23.
ATOMIC(sync∕atomic·AndInt32, 10, 20)
ATOMIC(sync∕atomic·AndUint32, 10, 20)
ATOMIC(sync∕atomic·AndInt64, 11, 24)
ATOMIC(sync∕atomic·AndUint64, 11, 24)
ATOMIC(sync∕atomic·AndUintptr, 11, 24)

ATOMIC(sync∕atomic·OrInt32, 12, 20)
ATOMIC(sync∕atomic·OrUint32, 12, 20)
ATOMIC(sync∕atomic·OrInt64, 13, 24)
ATOMIC(sync∕atomic·OrUint64, 13, 24)
ATOMIC(sync∕atomic·OrUintptr, 13, 24)
