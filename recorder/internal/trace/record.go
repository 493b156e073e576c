package trace

// A Recording is what was recorded of a run, or of a part of it.
type Recording struct {
	Records   []Record // in the order in which it was done
	Objects   []Object // by their numbers, of which 0 is none
	Sites     []Site   // by their numbers, of which 0 is none
	Variables int      // so many were met, if more than there are among the objects
	More      int      // records that come after all accesses, and are left out
}

// An Object is what records are about. A variable is one that may be in a race.
type Object struct {
	Kind     ObjectKind
	Site     uint32 // with its name
	Capacity uint32 // of a channel
	By       uint32 // of an Atomic: the goroutine
}

// ObjectKind says what an object is.
type ObjectKind uint8

// The kinds of objects.
const (
	Variable ObjectKind = iota
	Map                 // a variable: what a map holds
	Content             // a variable of several words
	Atomic              // a variable: one goroutine's atomic operations on another one, and the plain accesses of others to that
	Channel
	Mutex
	RWMutex
	Once
	Order // what is done before a Release comes before each Acquire
)

// IsVariable reports whether it is read and written.
func (k ObjectKind) IsVariable() bool { return k <= Atomic }

// A Site is a place of the source, and the name of what is used there.
type Site struct{ Place, Name string }

// Record is one thing that a goroutine did.
type Record struct {
	Value     uint64 // of a send, a receive or a meet: what was sent, or the number of the send
	Object    uint32
	Site      uint32 // where in the source
	OtherSite uint32 // of a meet: where the receiver stands; of a go or an access: the number of its stack
	Goroutine uint32 // 0 is main
	Other     uint32 // of a go: who is started; of a meet: the receiver
	Op        Op
	Kind      uint8  // of a go: a GoKind; of a case: IsSend or 0; of a lock or an unlock: IsAmong or 0
	Count     uint16 // of a default: so many cases follow it
}

// IsSend is the Kind of a Case that would have sent.
const IsSend = 1

// IsAmong is the Kind of a lock and an unlock where the same goroutine holds the lock before and again after it, with no other one
// between: they order nothing.
const IsAmong = 1

// GoKind is how a goroutine was started.
type GoKind uint8

// The kinds of a Go.
const (
	GoPlain   GoKind = iota
	GoForeign        // by code that isn't recorded, at an unknown place
	GoEarlier        // in an earlier part of the run
)

// Op says what a record is.
type Op uint8

// The operations.
const (
	None Op = iota // nothing was done
	Go
	Exit
	Read
	Write
	Send
	Receive
	Meet
	ReceiveClosed
	Close
	Default
	Case // of the default before it; Object 0 is nil
	Lock
	Unlock
	ReadLock
	ReadUnlock
	TryLock     // one that succeeded
	TryReadLock // as this
	TryFail     // either of the two that didn't
	OnceBegin
	OnceEnd
	OnceDone
	Release
	Acquire
)

// words are those of events. An order is a channel without a buffer, which is closed.
var words = [...]string{
	Read: "read", Write: "write",
	Send: "send", Receive: "recv", Meet: "meet", ReceiveClosed: "recvclosed", Close: "close",
	Lock: "lock", Unlock: "unlock", ReadLock: "rlock", ReadUnlock: "runlock",
	TryLock: "trylock", TryReadLock: "tryrlock", TryFail: "tryfail",
	OnceBegin: "oncebegin", OnceEnd: "onceend", OnceDone: "oncedone",
	Release: "close", Acquire: "recvclosed",
}

// deeds say what an operation is of a goroutine's, before the name of the object.
var deeds = [...]string{
	Send: "send on ", Receive: "receive from ", ReceiveClosed: "receive from the closed ", Close: "close of ",
	Lock: "lock of ", TryLock: "trylock of ", ReadLock: "rlock of ", TryReadLock: "tryrlock of ",
	Unlock: "unlock of ", ReadUnlock: "runlock of ",
	OnceBegin: "begin of ", OnceEnd: "end of ", OnceDone: "end of ",
	Release: "synchronization through ", Acquire: "synchronization through ",
}
