package patch

// channelRules tell each operation on a channel with the channel's lock held, so that their numbers are an order in
// which they happened. The fast paths of operations that can't wait don't take the lock: they go.
var channelRules = []rule{
	{in: "chansend", old: `racereadpc\(c\.raceaddr\(\), callerpc, abi\.FuncPCABIInternal\(chansend\)\)`,
		new: `_, _ = callerpc, abi.FuncPCABIInternal(chansend)`},
	{in: "chansend", old: `if !block && c\.closed == 0 && full\(c\) \{`,
		new: `if !raceenabled && !block && c.closed == 0 && full(c) {`},
	{in: "chansend", old: `\n\tif !block \{\n\t\tunlock\(&c\.lock\)`,
		new: "\n\tif !block {\n\t\tif raceenabled { recChan(logDefaultSend, c, nil) }; unlock(&c.lock)"},
	{in: "chansend", old: `racenotify\(c, c\.sendx, nil\)`, new: `recChan(logSend, c, ep)`},
	{in: "chansend", old: `\bgopark\(chanparkcommit,`, new: `if raceenabled { recWait() }; $0`},

	{in: "chanrecv", old: `if !block && empty\(c\) \{`, new: `if !raceenabled && !block && empty(c) {`},
	{in: "chanrecv", old: `\n\tif !block \{\n\t\tunlock\(&c\.lock\)`,
		new: "\n\tif !block {\n\t\tif raceenabled { recChan(logDefaultReceive, c, nil) }; unlock(&c.lock)"},
	{in: "chanrecv", old: `racenotify\(c, c\.recvx, nil\)`, new: `recChan(logReceive, c, qp)`},
	{in: "chanrecv", old: `raceacquire\(c\.raceaddr\(\)\)`, new: `recChan(logReceiveClosed, c, nil)`, count: 2},
	{in: "chanrecv", old: `\bgopark\(chanparkcommit,`, new: `if raceenabled { recWait() }; $0`},

	// to a receiver that waits: a meet, or a send into the empty buffer and the receive of it
	{in: "send", old: `racesync\(c, sg\)`, new: `recMeet(c, ep, sg.g, true)`},
	{in: "send", old: `racenotify\(c, c\.recvx, nil\)`, new: `recChan(logSend, c, ep)`},
	{in: "send", old: `racenotify\(c, c\.recvx, sg\)`, new: `recChanFor(logReceive, c, ep, sg.g)`},

	// from a sender that waits: a meet, or a receive from the full buffer and the send into it
	{in: "recv", old: `racesync\(c, sg\)`, new: `recMeet(c, sg.elem, sg.g, false)`},
	{in: "recv", old: `racenotify\(c, c\.recvx, nil\)`, new: `recChan(logReceive, c, qp)`},
	{in: "recv", old: `racenotify\(c, c\.recvx, sg\)`, new: `recChanFor(logSend, c, sg.elem, sg.g)`},

	{in: "closechan", old: `racewritepc\(c\.raceaddr\(\), callerpc, abi\.FuncPCABIInternal\(closechan\)\)`,
		new: `_, _ = callerpc, abi.FuncPCABIInternal(closechan)`},
	{in: "closechan", old: `racerelease\(c\.raceaddr\(\)\)`, new: `recChan(logClose, c, nil)`},
	// a sender that waits panics: it receives nothing
	{in: "closechan", old: `(?s)(c\.sendq\.dequeue\(\).*)raceacquireg\(gp, c\.raceaddr\(\)\)`, new: `${1}_ = gp`},
	{in: "closechan", old: `raceacquireg\(gp, c\.raceaddr\(\)\)`, new: `recChanFor(logReceiveClosed, c, nil, gp)`},

	// Stop and Reset of a timer take a stale value out of its channel
	{in: "timerchandrain", old: `\n\t\tany = true\n`,
		new: "\n\t\tany = true; if raceenabled { recChan(logReceive, c, chanbuf(c, c.recvx)) }\n", from: 23},
}

var selectRules = []rule{
	{in: "selectgo", old: `racereadpc\(c\.raceaddr\(\), casePC\(casi\), chansendpc\)`, new: `_ = casePC`},
	{in: "selectgo", old: `racenotify\(c, c\.recvx, nil\)`, new: `recChan(logReceive, c, chanbuf(c, c.recvx))`},
	{in: "selectgo", old: `racenotify\(c, c\.sendx, nil\)`, new: `recChan(logSend, c, cas.elem)`},
	{in: "selectgo", old: `raceacquire\(c\.raceaddr\(\)\)`, new: `recChan(logReceiveClosed, c, nil)`},
	{in: "selectgo", old: `\bgopark\(selparkcommit,`, new: `if raceenabled { recWait() }; $0`},
	{in: "selectgo", old: `\n\tif !block \{\n\t\tselunlock`,
		new: "\n\tif !block {\n\t\tif raceenabled { recDefault(scases, nsends) }; selunlock"},
}

// semaRules tell what a Cond orders. A goroutine that waits is woken by an edge. One that had a ticket and found itself
// notified before it could wait acquires what whoever notified it released.
var semaRules = []rule{
	{in: "notifyListWait", old: `\bgoparkunlock\(`, new: `if raceenabled { recWait() }; $0`},
	{in: "notifyListWait", old: `(\n\tif less\(t, l\.notify\) \{\n\t\t)unlock\(&l\.lock\)`,
		new: "${1}if raceenabled { raceacquire(unsafe.Pointer(l)) }; unlock(&l.lock)"},
	{in: "notifyListNotifyAll", old: `lockWithRank\(&l\.lock, lockRankNotifyList\)`,
		new: "$0; if raceenabled { racereleasemerge(unsafe.Pointer(l)) }"},
	{in: "notifyListNotifyAll", old: `readyWithTime\(s, 4\)`, new: `if raceenabled { recEdge(unsafe.Pointer(l), s.g) }; $0`},
	{in: "notifyListNotifyOne", old: `readyWithTime\(s, 4\)`, new: `if raceenabled { recEdge(unsafe.Pointer(l), s.g) }; $0`},
	{in: "notifyListNotifyOne", old: `\n\tunlock\(&l\.lock\)\n`,
		new: "\n\tif raceenabled { racereleasemerge(unsafe.Pointer(l)) }; unlock(&l.lock)\n"},
}

// channelWatch: racesync and racenotify have no callers left.
var channelWatch = watch{
	calls: `\brace\w+$`,
	known: []string{"c.raceaddr", "raceReadObjectPC", "raceWriteObjectPC"},
	but:   []string{"racesync", "racenotify"},
}

var semaWatch = watch{calls: `\brace\w+$`, known: []string{"raceacquire", "racereleasemerge"}}
