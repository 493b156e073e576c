#!/usr/bin/env python3
"""Writes a long legal trace of one of eight kinds, the same for the same arguments: what docs/PERFORMANCE.md measures.

    tests/workloads.py KIND [EVENTS] [--seed N] > FILE       EVENTS is 1,000,000 unless it is given

    mutexes      16 goroutines; 64 mutexes guard 2,048 variables
    pipeline     32 goroutines pass items along by 8 buffered channels, and read and write what they pass
    readers      64 goroutines read 4,096 variables; main writes some of them in between, after it met each reader
    rwmutexes    32 goroutines, 32 rwmutexes, of ten sections nine for reading; some onces
    ring         32 goroutines pass eight tokens round by unbuffered channels
    races        mutexes with 32 goroutines and 40,000 variables, one access in a hundred without its mutex
    goroutines   mutexes with 1,000 goroutines
    places       mutexes where each event has a place of its own"""

import argparse
import itertools
import random
import sys
from collections import deque

FOLDERS = ("", "pool/", "net/rpc/", "store/kv/", "internal/cache/")
FILES = ("main.go", "worker.go", "session.go", "handler.go", "q.go")
PLACES = 2_000


class Workload:
    """A trace as it is made: its declarations, its events, and the values that its variables have."""

    def __init__(self, seed, goroutines, has_own_places=False):
        self.chance, self.values = random.Random(seed), {}
        self.places = [self.named_place(line) for line in range(1, PLACES + 1)]
        self.numbers = itertools.count(1) if has_own_places else None
        self.workers = [f"w{it}" for it in range(1, goroutines + 1)]
        self.declared = [f"goroutine {it}" for it in self.workers]
        self.events = [f"go main {it} {self.place()}" for it in self.workers]

    def named_place(self, line):
        return f"{self.chance.choice(FOLDERS)}{self.chance.choice(FILES)}:{line}"

    def place(self):
        return self.named_place(next(self.numbers)) if self.numbers else self.places[int(self.chance.random() * PLACES)]

    def declare(self, kind, names, *more):
        self.declared += [" ".join((kind, it, *more)) for it in names]
        return names

    def does(self, word, who, *words):
        self.events.append(" ".join((word, who, *words, self.place())))

    def reads(self, who, var):
        self.does("read", who, var, str(self.values.get(var, 0)))

    def writes(self, who, var):
        self.values[var] = value = int(self.chance.random() * 10 ** self.chance.randrange(1, 7))
        self.does("write", who, var, str(value))

    def meets(self, one, other, chan, value):
        self.events.append(f"meet {one} {other} {chan} {value} {self.place()} {self.place()}")


def mutexes(it, variables, unguarded=0.0):
    """A section takes a mutex, reads and writes some of its variables, and gives it back."""
    locks = it.declare("mutex", [f"mu_{n}" for n in range(64)])
    names = it.declare("var", [f"balance_{n}" for n in range(variables)])
    while True:
        who, at = it.chance.choice(it.workers), it.chance.randrange(64)
        is_guarded = it.chance.random() >= unguarded
        if is_guarded:
            it.does("lock", who, locks[at])
        for _ in range(it.chance.randrange(1, 4) if is_guarded else 1):
            var = names[at + 64 * it.chance.randrange(variables // 64)]
            it.reads(who, var)
            it.writes(who, var)
        if is_guarded:
            it.does("unlock", who, locks[at])
        yield


def pipeline(it):
    """Each stage receives an item, changes the variable that belongs to it, and sends it on."""
    chans = it.declare("chan", [f"stage_{n}" for n in range(8)], "64")
    items = it.declare("var", [f"item_{n}" for n in range(256)])
    queues, free = [deque() for _ in chans], deque(range(256))
    while True:
        at = it.chance.randrange(8)
        item = queues[at - 1].popleft() if at and queues[at - 1] else free.popleft() if not at and free else None
        if item is None or len(queues[at]) == 64:
            if item is not None:
                (queues[at - 1].appendleft if at else free.appendleft)(item)
            if queues[7]:
                last = queues[7].popleft()
                it.does("recv", "main", chans[7], str(last))
                free.append(last)
                it.reads("main", items[last])
            yield
            continue
        who = it.workers[at * 4 + it.chance.randrange(4)] if at else "main"
        if at:
            it.does("recv", who, chans[at - 1], str(item))
        it.reads(who, items[item])
        it.writes(who, items[item])
        it.does("send", who, chans[at], str(item))
        queues[at].append(item)
        yield


def readers(it):
    """Between two rounds main meets each reader, so that it may write, and meets them again."""
    chan = it.declare("chan", ["round"], "0")[0]
    names = it.declare("var", [f"table_{n}" for n in range(4_096)])
    while True:
        for who in it.workers:
            it.meets(who, "main", chan, 1)
        for var in it.chance.sample(names, 256):
            it.writes("main", var)
        for who in it.workers:
            it.meets("main", who, chan, 2)
        for _ in range(16_384):
            it.reads(it.chance.choice(it.workers), it.chance.choice(names))
        yield


def rwmutexes(it):
    locks = it.declare("rwmutex", [f"rw_{n}" for n in range(32)])
    names = it.declare("var", [f"entry_{n}" for n in range(1_024)])
    onces = it.declare("once", [f"setup_{n}" for n in range(4_096)])
    for once in onces:
        it.does("oncebegin", "main", once)
        it.does("onceend", "main", once)
    while True:
        who, at = it.chance.choice(it.workers), it.chance.randrange(32)
        is_reader = it.chance.random() < 0.9
        it.does("rlock" if is_reader else "lock", who, locks[at])
        for _ in range(it.chance.randrange(1, 4)):
            (it.reads if is_reader else it.writes)(who, names[at + 32 * it.chance.randrange(32)])
        it.does("runlock" if is_reader else "unlock", who, locks[at])
        it.does("oncedone", who, it.chance.choice(onces))
        yield


def ring(it):
    """Who has a token reads and writes its variable, and passes it on to the next goroutine."""
    chans = it.declare("chan", [f"link_{n}" for n in range(len(it.workers))], "0")
    names = it.declare("var", [f"token_{n}" for n in range(8)])
    for token, var in enumerate(names):
        it.writes("main", var)
        it.meets("main", it.workers[token * 4], chans[token * 4], token)
    at = [token * 4 for token in range(8)]
    while True:
        token = it.chance.randrange(8)
        one, var = at[token], names[token]
        at[token] = other = (one + 1) % len(it.workers)
        it.reads(it.workers[one], var)
        it.writes(it.workers[one], var)
        it.meets(it.workers[one], it.workers[other], chans[other], token)
        yield


KINDS = {
    "mutexes": lambda seed: (it := Workload(seed, 16), mutexes(it, 2_048)),
    "pipeline": lambda seed: (it := Workload(seed, 32), pipeline(it)),
    "readers": lambda seed: (it := Workload(seed, 64), readers(it)),
    "rwmutexes": lambda seed: (it := Workload(seed, 32), rwmutexes(it)),
    "ring": lambda seed: (it := Workload(seed, 32), ring(it)),
    "races": lambda seed: (it := Workload(seed, 32), mutexes(it, 40_000, unguarded=0.02)),
    "goroutines": lambda seed: (it := Workload(seed, 1_000), mutexes(it, 2_048)),
    "places": lambda seed: (it := Workload(seed, 16, has_own_places=True), mutexes(it, 2_048)),
}


def write(workload, steps, events, out):
    """Writes the declarations, which the first step completes, and then so many events as they come."""
    next(steps)
    out.write("\n".join(["gotrace 1", *workload.declared]) + "\n")
    while events > 0:
        block, workload.events = workload.events[:events], []
        out.writelines(f"{it}\n" for it in block)
        events -= len(block)
        if events:
            next(steps)


def main():
    parser = argparse.ArgumentParser(description=__doc__, formatter_class=argparse.RawDescriptionHelpFormatter)
    parser.add_argument("kind", choices=KINDS)
    parser.add_argument("events", type=int, nargs="?", default=1_000_000)
    parser.add_argument("--seed", type=int, default=1)
    given = parser.parse_args()
    write(*KINDS[given.kind](given.seed), given.events, sys.stdout)


if __name__ == "__main__":
    main()
