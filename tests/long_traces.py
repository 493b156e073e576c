#!/usr/bin/env python3
"""Checks long traces, which several threads read side by side, against reports that are known as they are made.

    tests/long_traces.py [--program PROGRAM] [--seed N] [--count N | --only NUMBER]

Goroutines write variables under one mutex, send to each other, and meet. Now and then two of them write a variable without
the mutex, one right after the other: these are the races. Some traces have a faulty line. Each is read from a file, since a
pipe gives too few bytes at a time for several threads. The last line is `N passed, M failed`."""

import random
import subprocess
import sys
import tempfile

from common import NO_END, SECONDS, alone, rounds

USUAL = 40
THREADS = (1, 2, 3, 4, 64)
BLOCKS = (1000, 65536)
GUARDED = [f"guarded_{it}" for it in range(40)]
RACY = [f"racy_{it}" for it in range(30)]
WORKERS = ("left", "right", "a_goroutine_with_a_long_name")


class Trace:
    """A trace as it is made, with the races that it has."""

    def __init__(self, chance):
        self.chance, self.events, self.races, self.accesses = chance, [], {}, 0
        self.places = [f"cmd/server/main.go:{it}" for it in range(1, 200)]

    def place(self):
        """Returns a place, seldom a new one, in rare cases one that is too long for a common line."""
        if self.chance.random() < 0.004:
            self.places.append(f"internal/{'deep/' * self.chance.choice((0, 1, 18))}file.go:{len(self.places)}")
            return self.places[-1]
        return self.chance.choice(self.places)

    def add(self, *words):
        self.accesses += words[0] == "write"
        self.events.append(" ".join(words))

    def guarded(self, who):
        self.add("lock", who, "m", self.place())
        for _ in range(self.chance.randrange(1, 4)):
            self.add("write", who, self.chance.choice(GUARDED), str(self.chance.randrange(10**self.chance.randrange(1, 19))), self.place())
        self.add("unlock", who, "m", self.place())

    def sent(self, one, other):
        value = str(self.chance.randrange(1000))
        self.add("send", one, "buffered", value, self.place())
        self.add("recv", other, "buffered", value, self.place())

    def raced(self, one, other):
        var = self.chance.choice(RACY)
        first, second, at = self.place(), self.place(), len(self.events) + 1
        self.add("write", one, var, "1", first)
        self.add("write", other, var, "2", second)
        self.races.setdefault(var, f"race on {var}: write by {one} at {first} (event {at}), write by {other} at {second} (event {at + 1})")

    def step(self):
        one, other = self.chance.sample(WORKERS, 2)
        kind = self.chance.random()
        if kind < 0.9:
            self.guarded(one)
        elif kind < 0.95:
            self.sent(one, other)
        elif kind < 0.998:
            self.add("meet", one, other, "unbuffered", str(self.chance.randrange(9)), self.place(), self.place())
        else:
            self.raced(one, other)


def made(chance):
    """Returns a trace's text and the report with its status."""
    trace, names = Trace(chance), [*GUARDED, *RACY]
    chance.shuffle(names)
    objects = [*(f"goroutine {it}" for it in WORKERS), *(f"var {it}" for it in names), "mutex m", "chan buffered 3", "chan unbuffered 0"]
    for who in WORKERS:
        trace.add("go", "main", who, "main.go:1")
    size = chance.choice((150_000, 400_000, 1_200_000, 2_500_000))
    while sum(map(len, trace.events[:100])) / len(trace.events[:100]) * len(trace.events) < size:
        trace.step()
    lines = ["gotrace 1", *objects, *trace.events]
    if chance.random() < 0.4:
        at = chance.randrange(len(objects) + 1, len(lines))
        lines[at] = "jump " + lines[at]
        told, status = f"line {at + 1}: unknown word\n", 2
    elif trace.races:
        told = "".join(trace.races[var] + "\n" for var in names if var in trace.races) + f"races: {len(trace.races)}\n"
        status = 66
    else:
        told, status = f"clean: {len(trace.events)} events, {trace.accesses} accesses\n", 0
    return ("\n".join(lines) + "\n").encode(), (told, status)


def told_of(line, file):
    """Returns the report on the file and its status, or that there is none."""
    with open(file, "rb") as given:
        try:
            it = subprocess.run(line, stdin=given, capture_output=True, timeout=SECONDS)
        except subprocess.TimeoutExpired:
            return NO_END, None
    return it.stdout.decode(), it.returncode


def wrong_in(program, text, wanted):
    """Returns with how many threads the report is another one, as words; nothing where there is none."""
    with tempfile.NamedTemporaryFile() as file:
        file.write(text)
        file.flush()
        for threads in THREADS:
            for block in BLOCKS:
                line = ["check", "--shards", str(threads), "--block", str(block)]
                told = told_of([program, *line], file.name)
                if told != wanted:
                    return f"gorace {' '.join(line)}\n-- told --\n{told[0][:300]}\nstatus {told[1]}\n-- wanted --\n{wanted[0][:300]}\nstatus {wanted[1]}"
    return ""


def main():
    program, seed, numbers = rounds(__doc__, USUAL)
    failed = 0
    for number in numbers:
        text, wanted = made(random.Random(f"{seed} {number}"))
        if wrong := wrong_in(program, text, wanted):
            failed += 1
            print(f"FAILED trace {number} of seed {seed}, {len(text)} bytes: {wrong}\n{alone('--seed', seed, '--only', number)}")
    print(f"{len(numbers) - failed} passed, {failed} failed")
    return 1 if failed else 0


if __name__ == "__main__":
    sys.exit(main())
