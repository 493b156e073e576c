"""All runs of a small program, found from what docs/FORMATS.md says of programs and docs/MEMORY_MODEL.md of events: how many there
are, the variables with a race in some of them, and how they end. It shares nothing with the program: no pick and no list of
choices, but the events that each goroutine's step could make, tried by the rules of tests/graph.py."""

from collections import Counter

import graph


class TooMany(Exception):
    """There are more runs than were asked for."""


class Program:
    """The declarations, and each goroutine's steps."""

    def __init__(self, text):
        self.declared, self.bodies, self.version = [], {}, text.split("\n")[0].split()[1]
        for line in text.splitlines()[1:]:
            words = line.split()
            if words[0] == "body":
                self.bodies[words[1]] = []
            elif self.bodies:
                [*self.bodies.values()][-1].append(words)
            else:
                self.declared.append(line)
        self.order = ["main", *(line.split()[1] for line in self.declared if line.startswith("goroutine "))]

    def behind_once(self, who, at):
        """Returns the step behind the end of the function of the once at `at`."""
        depth = 0
        for number, step in enumerate(self.bodies[who][at + 1 :], at + 1):
            depth += {"do": 1, "enddo": -1}.get(step[0], 0)
            if depth < 0:
                return number + 1
        raise AssertionError("a once that has no end")


def offers(step):
    """Gives the sends and receives that a step offers: whether it sends, the channel, the value."""
    if step[0] == "send":
        return [(True, step[1], step[2])]
    if step[0] == "recv":
        return [(False, step[1], None)]
    if step[0] != "select" or step[1] == "-":
        return []
    words = [word.split(":") for word in step[1].split(",")]
    return [(word[0] == "send", word[1], word[2] if word[0] == "send" else None) for word in words]


def of_offer(run, who, offer, place):
    """Returns the event that an offer makes alone, or None on nil."""
    sends, chan, value = offer
    if chan == "nil":
        return None
    if sends:
        return ["fault", who, f"send:{chan}", place] if chan in run.closed else ["send", who, chan, value, place]
    waiting = run.buffer[chan]
    return ["recv", who, chan, waiting[0], place] if waiting else ["recvclosed", who, chan, place]


def alone(run, who, step):
    """Gives the events that a step could make alone, but for a default."""
    word, it, place = step[0], step[1], step[-1]
    if word in ("send", "recv", "select"):
        return [event for event in (of_offer(run, who, offer, place) for offer in offers(step)) if event]
    if word == "exit":
        return [["exit", who, place]]
    if word == "read":
        return [["read", who, it, run.values[it], place]]
    if word == "write":
        return [["write", who, it, step[2], place]]
    if word == "close":
        return [["fault", who, f"close:{it}", place] if it == "nil" or it in run.closed else ["close", who, it, place]]
    if word == "unlock" and not run.held[it] or word == "runlock" and not run.read_held[it]:
        return [["fault", who, f"{word}:{it}", place]]
    if word in ("trylock", "tryrlock"):
        return [[word, who, it, place], ["tryfail", who, it, place]]
    if word == "do":
        return [["oncedone" if it in run.begun else "oncebegin", who, it, place]]
    return [["onceend" if word == "enddo" else word, who, it, place]]


def meets(who, step, other, other_step):
    """Gives the events in which the one hands a value to the other."""
    for sends, chan, value in offers(step):
        for other_sends, other_chan, _ in offers(other_step):
            if sends and not other_sends and chan == other_chan != "nil":
                yield ["meet", who, other, chan, value, step[-1], other_step[-1]]


def default(who, step):
    cases = ",".join(f"{'send' if sends else 'recv'}:{chan}" for sends, chan, _ in offers(step))
    return ["default", who, cases or "-", step[-1]]


def moves(program, run, at):
    """Returns the events that can come next, one for each way in which it can come."""
    steps = {who: program.bodies[who][at[who]] for who in program.order if who in run.started - run.exited}
    found = [event for who, step in steps.items() for event in alone(run, who, step)]
    found += [event for who, step in steps.items() for other, there in steps.items() for event in meets(who, step, other, there)]
    found = [event for event in found if run.broken(event) is None]
    busy = {who for event in found for who in ([event[1], event[2]] if event[0] == "meet" else [event[1]])}
    waiting = [who for who, step in steps.items() if step[0] == "select" and step[2] == "default" and who not in busy]
    return found + [default(who, steps[who]) for who in waiting], steps


def step_on(program, at, event):
    """Returns the positions behind the event."""
    behind = dict(at)
    for who in [event[1], event[2]] if event[0] == "meet" else [event[1]]:
        behind[who] = program.behind_once(who, at[who]) if event[0] == "oncedone" else at[who] + 1
    return behind


def who_takes_part(event):
    return {event[1], event[2]} if event[0] in ("meet", "go") else {event[1]}


def is_on(event):
    """Returns the name of the variable, channel, lock or once that the event is on, if it is on one."""
    return None if event[0] in ("go", "exit") else event[3] if event[0] == "meet" else event[2]


def are_independent(one, other):
    """Tells whether two neighbours may change places, by docs/EXPLORE.md."""
    if any(it[0] in ("default", "fault") or it[:2] == ["exit", "main"] for it in (one, other)):
        return False
    if who_takes_part(one) & who_takes_part(other):
        return False
    return one[0] == other[0] == "read" or is_on(one) is None or is_on(one) != is_on(other)


class Tally:
    """How many runs there are; of each variable in how many it has a race; and of each end how many have it."""

    def __init__(self):
        self.runs = self.clean = self.racy = 0
        self.races, self.ends = Counter(), Counter()

    def add(self, races, how):
        self.runs += 1
        self.races.update(list(races))
        self.racy += bool(races)
        if how:
            self.ends[how] += 1
        self.clean += not races and not how

    def counts(self):
        by = Counter()
        for (what, _), count in self.ends.items():
            by[what] += count
        return f"runs: {self.runs}, clean: {self.clean}, races: {self.racy}, deadlocks: {by['deadlock']}, faults: {by['fault']}"

    def status(self):
        found = {what for what, _ in self.ends}
        return 66 if self.racy else 10 if "fault" in found else 11 if "deadlock" in found else 12 if "limit" in found else 0


class Explored:
    """What all runs come to, and what those come to in which no two independent neighbours, after which something comes, have the
    goroutine first that is declared later. `skipped` counts the shortest beginnings of the others by which they are known."""

    def __init__(self, text, limit, most):
        self.program, self.limit, self.most = Program(text), limit, most
        self.all, self.in_order, self.skipped, self.words = Tally(), Tally(), 0, Counter()
        self.walk([], {who: 0 for who in self.program.order}, True)

    def walk(self, events, at, in_order):
        run = graph.Run(self.program.declared)
        for event in events:
            run.take(event)
        found, steps = moves(self.program, run, at)
        last = events[-1] if events else ["", "", "", ""]
        if last[:2] == ["exit", "main"]:
            self.end(events, None, in_order)
        elif last[0] == "fault":
            self.end(events, ("fault", f"{last[1]} at {last[-1]}"), in_order)
        elif len(events) == self.limit:
            self.end(events, ("limit", ""), in_order)
        elif not found:
            self.end(events, ("deadlock", ", ".join(f"{who} at {step[-1]}" for who, step in steps.items())), in_order)
        else:
            if in_order and self.are_turned(events[-2:]):
                self.skipped, in_order = self.skipped + 1, False
            for event in found:
                self.walk([*events, event], step_on(self.program, at, event), in_order)

    def are_turned(self, two):
        rank = self.program.order.index
        return len(two) == 2 and rank(two[0][1]) > rank(two[1][1]) and are_independent(*two)

    def end(self, events, how, in_order):
        if self.all.runs == self.most:
            raise TooMany
        lines = [f"gotrace {self.program.version}", *self.program.declared, *(" ".join(event) for event in events)]
        trace = graph.Trace(("\n".join(lines) + "\n").encode())
        if trace.broken:
            raise AssertionError(trace.broken)
        races = trace.reported()
        self.words.update({event[0] for event in events})
        self.all.add(races, how)
        if in_order:
            self.in_order.add(races, how)
