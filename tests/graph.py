"""What docs/MEMORY_MODEL.md says of a small trace, word for word and by a graph: which rule an event breaks, the edges, what
happens before what, and the races. It shares nothing with the program."""

from collections import Counter, defaultdict

WORDS = (
    "go exit read write send recv meet recvclosed close default lock unlock rlock runlock trylock tryrlock tryfail "
    "oncebegin onceend oncedone fault"
).split()
KINDS = ("goroutine", "var", "chan", "mutex", "rwmutex", "once")


class Run:
    """A run so far, by whose state an event breaks a rule or doesn't."""

    def __init__(self, declared):
        self.capacity = {line.split()[1]: int(line.split()[2]) for line in declared if line.startswith("chan ")}
        self.started, self.exited, self.is_over = {"main"}, set(), False
        self.buffer, self.closed = defaultdict(list), set()
        self.held, self.read_held = Counter(), Counter()
        self.begun, self.ended, self.within = set(), set(), defaultdict(list)
        self.values = defaultdict(lambda: "0")

    def right_value(self, word, var, chan):
        """Returns the value that a read of the variable finds, or a receive from the channel."""
        return self.values[var] if word == "read" else (self.buffer[chan] or ["0"])[0]

    def is_ready(self, case):
        kind, chan = case.split(":")
        if chan == "nil":
            return False
        waiting = len(self.buffer[chan])
        has_room = waiting < self.capacity[chan] if kind == "send" else waiting > 0
        return chan in self.closed or (self.capacity[chan] > 0 and has_room)

    def is_fault(self, cause):
        """Tells whether what the fault names fails."""
        kind, it = cause.split(":")
        if kind == "unlock":
            return not self.held[it]
        if kind == "runlock":
            return not self.read_held[it]
        return it == "nil" or it in self.closed

    def rules(self, word, who, it, rest):
        """Gives each rule of the table, and whether the event breaks it, in the table's order."""
        runs = self.started - self.exited
        is_once, is_recv = word.startswith("once"), word == "recv"
        meets = word == "meet"
        chan = rest[0] if meets else it
        room, waiting = self.capacity.get(chan, 0), self.buffer[chan]
        locks, reads = word in ("lock", "trylock"), word in ("rlock", "tryrlock")
        inner = self.within[who][-1:] or [None]
        yield "after end", self.is_over
        yield "not running", who not in runs or (meets and it not in runs)
        yield "already started", word == "go" and it in self.started
        yield "meets itself", meets and it == who
        yield "wrong form", (word in ("send", "recv") and room == 0) or (meets and room > 0)
        yield "send on closed", word in ("send", "meet") and chan in self.closed
        yield "buffer full", word == "send" and len(waiting) >= room
        yield "buffer empty", is_recv and not waiting
        yield "wrong value", is_recv and waiting[0] != rest[0]
        yield "not closed", word == "recvclosed" and it not in self.closed
        yield "not drained", word == "recvclosed" and bool(waiting)
        yield "close of closed", word == "close" and it in self.closed
        yield "held", (locks or reads) and bool(self.held[it])
        yield "read held", locks and bool(self.read_held[it])
        yield "not held", word == "unlock" and not self.held[it]
        yield "not read held", word == "runlock" and not self.read_held[it]
        yield "once again", word == "oncebegin" and it in self.begun
        yield "once not inner", word == "onceend" and inner[0] != it
        yield "once not done", word == "oncedone" and it not in self.ended
        yield "once open", word == "exit" and inner[0] is not None
        yield "stale read", word == "read" and self.values[it] != rest[0]
        yield "case ready", word == "default" and it != "-" and any(map(self.is_ready, it.split(",")))
        yield "no fault", word == "fault" and not self.is_fault(it)

    def broken(self, event):
        """Returns the first rule that the event breaks, or None."""
        word, who, it, *rest = [*event, None][: max(3, len(event))]
        for rule, is_broken in self.rules(word, who, it, rest):
            if is_broken:
                return rule
        return None

    def take(self, event):
        """Goes on by an event that breaks no rule."""
        word, who, it = event[:3]
        if word == "go":
            self.started.add(it)
        elif word == "exit":
            self.exited.add(who)
        elif word == "write":
            self.values[it] = event[3]
        elif word == "send":
            self.buffer[it].append(event[3])
        elif word == "recv":
            self.buffer[it].pop(0)
        elif word == "close":
            self.closed.add(it)
        elif word in ("lock", "trylock", "unlock"):
            self.held[it] += -1 if word == "unlock" else 1
        elif word in ("rlock", "tryrlock", "runlock"):
            self.read_held[it] += -1 if word == "runlock" else 1
        elif word == "oncebegin":
            self.begun.add(it)
            self.within[who].append(it)
        elif word == "onceend":
            self.ended.add(it)
            self.within[who].pop()
        self.is_over = self.is_over or word == "fault" or (word, who) == ("exit", "main")


def parts(event):
    """Returns who takes part in an event."""
    return [event[1], event[2]] if event[0] in ("go", "meet") else [event[1]]


class Trace:
    """A trace, what it is judged to be, and what happens before what in it."""

    def __init__(self, text):
        lines = [line.split() for line in text.decode().splitlines()[1:]]
        declared = [line for line in lines if line[0] in KINDS]
        self.declared = [" ".join(line) for line in declared]
        self.text, self.events = text, lines[len(declared) :]
        self.vars = [line[1] for line in declared if line[0] == "var"]
        self.number = {name: at for at, name in enumerate(["main", *(it[1] for it in declared if it[0] == "goroutine")])}
        self.run, self.broken = Run(self.declared), None
        for at, event in enumerate(self.events):
            if rule := self.run.broken(event):
                self.broken = at, rule
                return
            self.run.take(event)
        self.edges = sorted(set(self.found()), key=lambda it: (it[0], it[2], self.number[it[1]], self.number[it[3]]))
        self.before = self.all_before()

    def of(self, words, it):
        """Returns the numbers of the events with one of these words on the object."""
        return [at for at, event in enumerate(self.events) if event[0] in words and event[2] == it]

    def found(self):
        """Gives each edge, from the begin of a part to the end of another: event, goroutine, event, goroutine."""
        for one, who, other, whom in self.pairs():
            yield one, who, other, whom
        for at, event in enumerate(self.events):
            if event[0] in ("go", "meet"):
                yield at, event[1], at, event[2]
            if event[0] == "meet":
                yield at, event[2], at, event[1]

    def pairs(self):
        for one, other in self.of_channels() + self.of_locks() + self.of_onces():
            yield one, self.events[one][1], other, self.events[other][1]

    def of_channels(self):
        found = []
        for chan, capacity in self.run.capacity.items():
            sends, receives = self.of(["send"], chan), self.of(["recv"], chan)
            found += zip(sends, receives)
            found += zip(receives, sends[capacity:])
            found += [(one, other) for one in self.of(["close"], chan) for other in self.of(["recvclosed"], chan)]
        return found

    def of_locks(self):
        found = []
        for lock in {event[2] for event in self.events if event[0].endswith("lock")}:
            locks, unlocks = self.of(["lock", "trylock"], lock), self.of(["unlock"], lock)
            found += [(one, other) for one in unlocks for other in locks if one < other]
            for read in self.of(["rlock", "tryrlock"], lock):
                found += [(one, read) for one in unlocks if one < read][-1:]
            for end in self.of(["runlock"], lock):
                found += [(end, other) for other in locks if end < other][:1]
        return found

    def of_onces(self):
        dones = [at for at, event in enumerate(self.events) if event[0] == "oncedone"]
        return [(one, other) for other in dones for one in self.of(["onceend"], self.events[other][2])]

    def graph(self):
        """Returns what each point leads to: a part's begin to its end, that to the goroutine's next begin, and the edges."""
        leads, last = defaultdict(list), {}
        for at, event in enumerate(self.events):
            for who in parts(event):
                leads[at, who, "begin"].append((at, who, "end"))
                if who in last:
                    leads[last[who], who, "end"].append((at, who, "begin"))
                last[who] = at
        for one, who, other, whom in self.edges:
            leads[one, who, "begin"].append((other, whom, "end"))
        return leads

    def all_before(self):
        """Returns of each access those that happen before it: whose end reaches its begin."""
        leads = self.graph()
        accesses = [at for at, event in enumerate(self.events) if event[0] in ("read", "write")]
        before = {at: set() for at in accesses}
        for first in accesses:
            reached, todo = set(), [(first, self.events[first][1], "end")]
            while todo:
                point = todo.pop()
                if point not in reached:
                    reached.add(point)
                    todo += leads[point]
            for at, _, side in reached:
                if side == "begin" and at in before:
                    before[at].add(first)
        return before

    def reported(self):
        """Returns the reported race of each variable that has one."""
        races = {}
        for second in sorted(self.before):
            for first in sorted(self.before, reverse=True):
                one, other = self.events[first], self.events[second]
                is_conflict = first < second and one[2] == other[2] and "write" in (one[0], other[0])
                if is_conflict and first not in self.before[second] and second not in self.before[first]:
                    races.setdefault(one[2], (first, second))
        return races

    def told(self):
        """Returns the report of a check, and its status."""
        if self.broken:
            return f"illegal: event {self.broken[0] + 1}: {self.broken[1]}\n", 1
        races = self.reported()
        if not races:
            return f"clean: {len(self.events)} events, {len(self.before)} accesses\n", 0
        lines = []
        for var in self.vars:
            if var in races:
                sides = [f"{self.events[at][0]} by {self.events[at][1]} at {self.events[at][-1]} (event {at + 1})" for at in races[var]]
                lines.append(f"race on {var}: {', '.join(sides)}\n")
        return "".join(lines) + f"races: {len(lines)}\n", 66

    def edges_told(self):
        lines = [f"edge {one + 1} {who} {other + 1} {whom}\n" for one, who, other, whom in self.edges]
        return "".join(lines) + f"edges: {len(lines)}\n"

    def is_reordering(self, order):
        """Tells whether each access stands in the order, once, and behind all that happen before it."""
        place = {at: number for number, at in enumerate(order)}
        if len(place) != len(order) or set(place) != set(self.before):
            return False
        return all(place[one] < place[at] for at, before in self.before.items() for one in before)

    def swapped(self, order):
        """Returns the order with two accesses swapped of which one happens before the other, or None where there are none."""
        for number, at in enumerate(order):
            for earlier, one in enumerate(order[:number]):
                if one in self.before.get(at, ()):
                    other = [*order]
                    other[earlier], other[number] = at, one
                    return other
        return None
