"""Random legal traces, in which what orders accesses is mixed: bodies of goroutines that take turns at random, or random events
of which those happen that break no rule."""

from collections import Counter

import graph

ACCESSES = "read x|write x".split("|")
VARS = "xyz"
# What a body is made of, by the objects on which it acts; A stands for some accesses. Of these groups a trace has a few.
GROUPS = """lock m;A;unlock m|lock m;unlock m;A|A;lock m;unlock m|trylock m;A;unlock m|A;trylock m;unlock m|lock m|unlock m
lock r;A;unlock r|A;lock r;unlock r|rlock r;A;runlock r|rlock r;runlock r;A|A;rlock r;runlock r|tryrlock r;A;runlock r|runlock r
lock m;A;unlock m|lock k;A;unlock k|lock m;lock k;A;unlock k;unlock m
send c;A;recv c|send c;recv c;A|A;send c;recv c|select send:c;A
A;send c|recv c;A|send c|recv c|A;select send:c|select recv:c;A|select send:c,recv:d;A|A;close c
A;send d|recv d;A|send d;A|A;recv d|select recv:d;A|A;close d
do o;A;enddo o;A|A;do o;enddo o|do o;A;enddo o|A;go e|select -;A""".splitlines()
WORDS = "lock unlock trylock tryfail|rlock runlock tryrlock tryfail|send recv default|meet recvclosed close default|oncebegin onceend oncedone"
OBJECTS = "goroutine a|goroutine b|goroutine e|var x|var y|var z|chan c CAP|chan d 0|mutex m|mutex k|rwmutex r|once o"
ENDS = {"lock": "unlock", "rlock": "runlock", "trylock": "unlock", "tryrlock": "runlock", "do": "enddo"}


class Making:
    """A trace so far. In a usual one no two writes or sends have one value, a lock is unlocked by who locked it, and a try fails only
    where it is locked."""

    def __init__(self, chance, is_usual, longest):
        self.chance, self.is_usual, self.longest = chance, is_usual, longest
        self.lines = OBJECTS.replace("CAP", chance.choice("1123")).split("|")
        self.run, self.events, self.value = graph.Run(self.lines), [], 0

    def text(self):
        return "\n".join(["gotrace 2", *self.lines, *map(" ".join, self.events)]).encode() + b"\n"

    def is_long(self):
        return sum(event[0] != "go" for event in self.events) >= self.longest

    def tries(self):
        return range(self.longest * 8)

    def new_value(self):
        self.value += 1
        return str(self.value) if self.is_usual else self.chance.choice("01")

    def is_usual_here(self, word, who, lock):
        if word == "tryfail":
            return self.run.held[lock] or self.run.read_held[lock]
        own = Counter(event[0].removeprefix("try") for event in self.events if event[1:3] == [who, lock])
        return own[word.replace("un", "", 1)] > own[word]

    def happens(self, word, who, *rest):
        """Adds the event, unless it breaks a rule. What a read or a receive finds is put in its place."""
        if word in ("read", "recv"):
            rest = [*rest, self.run.right_value(word, rest[0], rest[0])]
        elif word in ("write", "send", "meet"):
            rest = [*rest, self.new_value()]
        elif self.is_usual and word in ("tryfail", "unlock", "runlock") and not self.is_usual_here(word, who, *rest):
            return False
        at = len(self.events) + 1
        return self.again([word, who, *rest, f"{who}:{at}"] + ([f"{rest[0]}:{at}"] if word == "meet" else []))

    def again(self, event):
        """The same of a whole event."""
        if event[0] == "read":
            event = [*event[:3], self.run.values[event[2]], *event[4:]]
        if self.run.broken(event):
            return False
        self.run.take(event)
        self.events.append(event)
        return True


class Bodies:
    """What each goroutine is to do, and does in turns."""

    def __init__(self, making):
        self.making, self.chance = making, making.chance
        self.groups = self.chance.sample(GROUPS, self.chance.choice((1, 1, 2, 3)))
        others = "ab" if self.chance.random() < 0.7 else "a"
        self.todo = {who: self.body() for who in ["main", *others, "e"]}
        for who in others:
            self.todo["main"].insert(self.chance.choice((0, 0, 0, 1)), f"go {who}")

    def body(self):
        steps = []
        for _ in range(self.chance.randrange(1, self.making.longest // 4 + 1)):
            step = self.chance.choice(self.chance.choice(self.groups).split("|"))
            steps += ";".join(self.accesses() if it == "A" else it for it in step.split(";")).split(";")
        return [step for step in steps if step]

    def accesses(self):
        return ";".join(self.chance.choice(ACCESSES) for _ in range(self.chance.choice((0, 1, 1, 1, 2))))

    def skip(self, who, step):
        """Goes on behind what the step begins, which is left out."""
        word, it = step.split()
        todo = self.todo[who]
        while todo and todo.pop(0) != f"{ENDS[word]} {it}":
            pass

    def select(self, who, cases):
        """One of the cases that can go on, else the default."""
        tried = [case.split(":") for case in cases.split(",") if case != "-"]
        self.chance.shuffle(tried)
        return any(self.step(who, f"{kind} {chan}") for kind, chan in tried) or self.making.happens("default", who, cases)

    def meet(self, who, chan):
        partners = [other for other, todo in self.todo.items() if other != who and todo and todo[0] == f"recv {chan}"]
        for other in self.chance.sample(partners, len(partners)):
            if self.making.happens("meet", who, other, chan):
                self.todo[other].pop(0)
                return True
        return False

    def step(self, who, step):
        """Tells whether the goroutine's next step happened."""
        word, it = step.split()
        happens = self.making.happens
        if word == "select":
            return self.select(who, it)
        if word == "do":
            if happens("oncedone", who, it):
                self.skip(who, step)
                return True
            return happens("oncebegin", who, it)
        if word == "enddo":
            return happens("onceend", who, it)
        if word.startswith("try"):
            if happens(word, who, it):
                return True
            if happens("tryfail", who, it):
                self.skip(who, step)
                return True
            return False
        if word == "recv" and happens("recvclosed", who, it):
            return True
        return happens(word, who, it) or (word == "send" and self.meet(who, it))

    def go(self):
        who = "main"
        for _ in self.making.tries():
            able = [who for who, todo in self.todo.items() if todo and who in self.making.run.started]
            if not able or self.making.is_long():
                return
            if who not in able or self.chance.random() < 0.3:
                who = self.chance.choice(able)
            step = self.todo[who].pop(0)
            if not self.step(who, step):
                self.todo[who].insert(0, step)


def random_event(making, words):
    """Tries one random event."""
    chance = making.chance
    who = chance.choice(["main", "a", "b"])
    access = chance.choice(ACCESSES).split()
    lock, chan = chance.choice("mr"), chance.choice("cccd")
    cases = ",".join(f"{chance.choice(('send', 'recv'))}:{chance.choice(('c', 'd', 'nil'))}" for _ in range(chance.choice((0, 1, 1, 2))))
    rest = {
        "meet": [chance.choice(["main", "a", "b"]), "d"],
        "default": [cases or "-"],
        **{it: [chan] for it in ("send", "recv", "recvclosed", "close")},
        **{it: ["o"] for it in ("oncebegin", "onceend", "oncedone")},
        **{it: [lock] for it in ("lock", "unlock", "trylock", "tryfail")},
        **{it: ["r"] for it in ("rlock", "runlock", "tryrlock")},
    }
    word = chance.choice(words) if chance.random() < 0.6 else access[0]
    if word != "close" or chance.random() < 0.2:
        making.happens(word, who, *rest.get(word, access[1:]))


def share(making):
    """Gives the accesses their variables, so that mostly no two race: those of several goroutines share one where they are ordered.
    Tells whether some do, and one of them writes."""
    chance, trace = making.chance, graph.Trace(making.text())
    events, making.run, making.events = trace.events, graph.Run(making.lines), []
    users = {var: [] for var in VARS}
    is_racy = chance.random() < 0.1
    for at, event in enumerate(events):
        if at in trace.before:
            ordered = [var for var in VARS if is_racy or all(it in trace.before[at] or events[it][1] == event[1] for it in users[var])]
            others = [var for var in ordered if any(events[it][1] != event[1] for it in users[var])]
            choice = others if others and chance.random() < 0.7 else ordered
            if not choice:
                continue
            event[2] = chance.choice(choice)
            users[event[2]].append(at)
        making.again(event)
    return any(len({events[at][1] for at in of}) > 1 and any(events[at][0] == "write" for at in of) for of in users.values())


def made(chance, is_usual, longest):
    """Makes a trace, whose accesses are all of one variable yet."""
    making = Making(chance, is_usual, longest)
    if chance.random() < 0.6:
        Bodies(making).go()
        return making
    for who in "ab"[: chance.choice((1, 2, 2))]:
        making.happens("go", "main", who)
    words = " ".join(chance.sample(WORDS.split("|"), chance.choice((1, 1, 2, 3)))).split()
    for _ in making.tries():
        if not making.is_long():
            random_event(making, words)
    return making


def trace(chance, is_usual, longest):
    """Returns the text of a legal trace with at most so many events beside its `go`s, in which goroutines mostly share a variable."""
    for _ in range(chance.choice((1, 4, 4))):
        making = made(chance, is_usual, longest)
        if share(making):
            break
    if chance.random() < 0.2:
        word, *cause = chance.choice(("exit", "fault close:nil")).split()
        making.happens(word, chance.choice(["main", "a", "b"]), *cause)
    return making.text()
