"""The races that other runs of a small trace's goroutines end with, by the definition in docs/MEMORY_MODEL.md ("Other runs") and
the rules of tests/graph.py: all legal orders of prefixes of what each goroutine did. It shares nothing with the program."""

import copy
from collections import defaultdict
from itertools import combinations

from graph import Run, parts

ACCESSES = ("read", "write")
# What an event changes of a run; a read, a default and a failed try change nothing.
CHANGES = {
    "go": ["started"],
    "exit": ["exited"],
    "write": ["values"],
    "close": ["closed"],
    **{word: ["buffer"] for word in ("send", "recv")},
    **{word: ["held"] for word in ("lock", "trylock", "unlock")},
    **{word: ["read_held"] for word in ("rlock", "tryrlock", "runlock")},
    "oncebegin": ["begun", "within"],
    "onceend": ["ended", "within"],
}


def after(run, event):
    """Returns the run that goes on by the event; the one so far stays as it is."""
    other = copy.copy(run)
    for name in CHANGES.get(event[0], ()):
        changed = getattr(run, name).copy()
        if name in ("buffer", "within"):
            it = event[2] if name == "buffer" else event[1]
            changed[it] = [*changed[it]]
        setattr(other, name, changed)
    other.take(event)
    return other


def conflict(one, other):
    """Tells whether the two events are accesses of one variable, by two goroutines, and one at least is a write."""
    both = one[0] in ACCESSES and other[0] in ACCESSES and one[2] == other[2] and one[1] != other[1]
    return both and "write" in (one[0], other[0])


class Runs:
    """All runs that the goroutines of a legal trace could have had, state by state. The definition wants neither of two things that
    may be asked for: that a try fails only at a lock that is locked, and that what is done is done in the recorded order."""

    def __init__(self, trace, has_strict_tries=False, is_in_order=False):
        self.trace, self.has_strict_tries, self.is_in_order = trace, has_strict_tries, is_in_order
        self.chans = sorted(trace.run.capacity)
        self.did = {who: [] for who in trace.number}
        for at, event in enumerate(trace.events):
            for who in parts(event):
                self.did[who].append(at)
        self.seen = set()

    def is_new(self, run, front):
        """Tells whether the run so far is in no state that was seen. How far each goroutine has come says what is locked, closed
        or begun; the order of writes and sends says the rest."""
        values = tuple(run.values[var] for var in self.trace.vars)
        state = tuple(front.values()), values, tuple(tuple(run.buffer[chan]) for chan in self.chans)
        is_new = state not in self.seen
        self.seen.add(state)
        return is_new

    def broken(self, run, event):
        is_free = event[0] == "tryfail" and not (run.held[event[2]] or run.read_held[event[2]])
        return "free" if self.has_strict_tries and is_free else run.broken(event)

    def steps(self, run, front, nexts):
        """Gives each next state: an event happens where it is the next one of all who take part in it."""
        last = max((self.did[who][count - 1] for who, count in front.items() if count), default=-1)
        for at, rule in nexts.items():
            who = parts(self.trace.events[at])
            is_late = self.is_in_order and at < last
            if not rule and not is_late and all(at in self.did[it][front[it] : front[it] + 1] for it in who):
                yield after(run, self.trace.events[at]), {**front, **{it: front[it] + 1 for it in who}}

    def pairs(self):
        """Gives each pair of accesses, the one that was recorded first in front, with which such a run can end. A read may find
        another value there."""
        events, todo = self.trace.events, [(Run(self.trace.declared), {who: 0 for who in self.did})]
        while todo:
            run, front = todo.pop()
            if not self.is_new(run, front):
                continue
            nexts = {did[front[who]] for who, did in self.did.items() if front[who] < len(did)}
            nexts = {at: self.broken(run, events[at]) for at in sorted(nexts)}
            last = [at for at, rule in nexts.items() if rule in (None, "stale read") and events[at][0] in ACCESSES]
            yield from (pair for pair in combinations(last, 2) if conflict(*(events[at] for at in pair)))
            todo += self.steps(run, front, nexts)


def shared(trace):
    """Returns the variables without a race that two goroutines use, one of which writes: no other run races on another one."""
    races, users, written = trace.reported(), defaultdict(set), set()
    for event in trace.events:
        if event[0] in ACCESSES and event[2] not in races:
            users[event[2]].add(event[1])
            written |= {event[2]} if event[0] == "write" else set()
    return {var for var in written if len(users[var]) > 1}


def predicted(trace, has_strict_tries=False, is_in_order=False):
    """Returns for each variable without a race in the trace, where another run ends with one, the pairs that such runs end with."""
    found, looked_at = defaultdict(set), shared(trace)
    for pair in Runs(trace, has_strict_tries, is_in_order).pairs() if looked_at else ():
        if trace.events[pair[0]][2] in looked_at:
            found[trace.events[pair[0]][2]].add(pair)
    return found


def lacks(trace, certificate, var):
    """Says what the certificate, read as a trace, lacks to show that another run ends with a race on the variable; or nothing."""
    if certificate.declared != trace.declared or certificate.text.split(b"\n")[0] != trace.text.split(b"\n")[0]:
        return "the same declarations"
    if certificate.broken:
        return f"that its event {certificate.broken[0] + 1} is legal: {certificate.broken[1]}"
    events = certificate.events
    if len(events) < 2 or not conflict(*events[-2:]) or events[-1][2] != var:
        return f"two accesses of {var} at its end"
    for who in certificate.number:
        theirs, mine = ([event for event in it.events if who in parts(event)] for it in (trace, certificate))
        for at, event in enumerate(mine):
            recorded = theirs[at] if at < len(theirs) else None
            is_last_read = any(event is it for it in events[-2:]) and event[0] == "read"
            if event != recorded and not (is_last_read and recorded and without_value(event) == without_value(recorded)):
                return f"that {who} does what it did: {' '.join(event)}"
    return ""


def without_value(event):
    return [*event[:3], *event[4:]]
