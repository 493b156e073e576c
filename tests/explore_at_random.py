#!/usr/bin/env python3
"""Compares what `gorace explore` says of small random programs with all their runs, by tests/explorations.py.

    tests/explore_at_random.py [--program PROGRAM] [--seed N] [--count N | --only NUMBER]

A round is a program of some steps in two goroutines or three, now and then with a limit on events. How many runs there are, of each
variable in how many it has a race, and of each end how many have it, has to be the same; and `gorace race` by the picks of each line
has to show what the line says. Then as many runs are asked for as there are, and one fewer. With --reduce the same has to hold of
the runs in which no independent neighbours are turned; with as many skipped, the same variables with a race, and the same ends. What
differs is printed with the input.
The last line is `N passed, M failed`."""

import random
import re
import sys
from collections import Counter
from concurrent.futures import ProcessPoolExecutor
from functools import partial

import explorations
import graph
from at_random import Gorace, Wrong, failure
from common import alone, processors, rounds

USUAL = 500
MOST = 3000
DECLARED = ["var x", "var y", "chan d 0", "chan c 1", "mutex m", "rwmutex r", "once o"]
ACCESSES = ["read x", "write x 1", "read x", "write x 3", "read y", "write y 2"]
STEPS = """send d 1|recv d|send c 2|recv c|close c|lock m;write x 4;unlock m|lock m;read x;unlock m|lock m|unlock m|rlock r;read y;runlock r
lock r;write y 5;unlock r|do o;write x 6;enddo o|do o;read x;enddo o|select send:d:6,recv:c default|select recv:d,send:c:7 default
select recv:d,recv:c block|select send:d:1,recv:d block|select - default|select recv:c,recv:c block|select recv:d default|select send:d:8 default"""
PAIRS = ["send d 1", "recv d"], ["send c 2", "recv c"], ["lock m;write x 4;unlock m", "lock m;read x;unlock m"], ["close c", "recv c"], ["do o;write x 6;enddo o"]
SELDOM = "close d|recv nil|send nil 1|close nil|runlock r".split("|")
TRIES = "trylock m;write x 7|tryrlock r;read y|trylock m|trylock r;unlock r|trylock m;unlock m"
RACE = re.compile(r"race on (\w+) in (\d+) of (\d+) runs: (\w+ by \w+ at \S+), (\w+ by \w+ at \S+); with --picks ([0-9,]+)")
SKIPPED = re.compile(r"skipped: (\d+) runs that differ from others only in the order of independent steps")
END = re.compile(r"(fault|deadlock|limit) in (\d+) of (\d+) runs(?:: (.*))?; with --picks ([0-9,]+)")
ENOUGH = 15


def program(chance):
    """Returns a program of up to eight steps, starts and exits not counted, of a few kinds."""
    version = chance.choice((1, 2, 2))
    steps = STEPS.replace("\n", "|").split("|") + (TRIES.split("|") * 3 if version == 2 else [])
    pool = ACCESSES * 2 + chance.sample(steps, 3) + chance.choice(PAIRS) * 3 + chance.choice(PAIRS) + chance.sample(SELDOM, chance.random() < 0.1)
    others = ["a", "b"][: chance.choice((1, 1, 2))]
    lines = [f"goprogram {version}", *(f"goroutine {who}" for who in others), *DECLARED]
    place = iter(range(1, 100))
    for who in ["main", *others]:
        body, share = [], chance.randrange(1, 9 // (len(others) + 1) + 1)
        while len(body) < share:
            body += chance.choice(pool).split(";")
        starts = [f"go {it}" for it in others] if who == "main" else []
        lines += [f"body {who}", *(f"{step} p:{next(place)}" for step in [*starts, *body, "exit"])]
    return "\n".join(lines) + "\n"


def look_at_lines(gorace, text, lines, line):
    """Asks for the run of each line by its picks, and returns what the lines count."""
    races, ends = Counter(), Counter()
    limit = line[line.index("--limit") :][:2] if "--limit" in line else []
    for told in lines:
        if race := RACE.fullmatch(told):
            races[race[1]] = int(race[2])
            report, status = gorace.told(text.encode(), "race", "--picks", race[6], *limit)
            wanted = rf"race on {race[1]}: {re.escape(race[4])} \(event \d+\), {re.escape(race[5])} \(event \d+\)\n"
            if status != 66 or not re.search(wanted, report):
                raise Wrong(["race", "--picks", race[6]], text.encode(), report, told)
        elif end := END.fullmatch(told):
            ends[end[1], end[4] or ""] = int(end[2])
            report, status = gorace.told(text.encode(), "race", "--picks", end[5], *limit)
            if not report.endswith(f"end: {end[1]}\n"):
                raise Wrong(["race", "--picks", end[5]], text.encode(), report, told)
        else:
            raise Wrong(line, text.encode(), told, "a line of a race or of an end")
    return races, ends


def look_at_runs(gorace, text, line, wanted):
    """Compares what the command says of a program with a tally of its runs, and returns it."""
    told, status = gorace.told(text.encode(), *line)
    *lines, counts = told.splitlines() or [""]
    if (counts, status) != (wanted.counts(), wanted.status()):
        raise Wrong(line, text.encode(), (told, status), (wanted.counts(), wanted.status()))
    lines = [told for told in lines if not SKIPPED.fullmatch(told)]
    found = look_at_lines(gorace, text, lines, line)
    if found != (wanted.races, wanted.ends) or len(lines) != len(wanted.races) + len(wanted.ends):
        raise Wrong(line, text.encode(), told, (wanted.races, wanted.ends))
    return told, status


def look_at_budget(gorace, text, line, told, made):
    """Asks for as many runs as are made, and for one fewer."""
    gorace.tells(told, text.encode(), *line, "--runs", str(made))
    if made > 1:
        fewer = made - 1
        told, _ = gorace.told(text.encode(), *line, "--runs", str(fewer))
        if f"stopped after {fewer} runs\n" not in told:
            raise Wrong([*line, "--runs", str(fewer)], text.encode(), told, f"that it stops after {fewer}")


def compare(gorace, seed, number, seen):
    chance = random.Random(f"{seed} {number}")
    while True:
        text, limit = program(chance), chance.choice((100, 100, 100, 3, 5))
        try:
            wanted = explorations.Explored(text, limit, MOST)
            break
        except explorations.TooMany:
            seen["too many"] += 1
    line = ["explore"] + (["--limit", str(limit)] if limit < 100 else [])
    look_at_budget(gorace, text, line, look_at_runs(gorace, text, line, wanted.all), wanted.all.runs)
    fewer = [*line, "--reduce"]
    told = look_at_runs(gorace, text, fewer, wanted.in_order)
    skipped = [int(it[1]) for it in map(SKIPPED.fullmatch, told[0].splitlines()) if it]
    if skipped != [wanted.skipped] * (wanted.skipped > 0):
        raise Wrong(fewer, text.encode(), told, f"that {wanted.skipped} runs are skipped")
    same = [(set(it.races), set(it.ends), it.status()) for it in (wanted.all, wanted.in_order)]
    if same[0] != same[1]:
        raise Wrong(fewer, text.encode(), same[1], same[0])
    look_at_budget(gorace, text, fewer, told, wanted.in_order.runs + wanted.skipped)
    seen.update(wanted.words.keys())
    seen.update({what for what, _ in wanted.all.ends})
    runs = wanted.all.runs
    seen.update({"racy": bool(wanted.all.racy), "some racy": 0 < wanted.all.racy < runs, "clean": wanted.all.clean == runs, "fewer": bool(wanted.skipped)})
    seen["runs"] += runs
    seen["judged"] += wanted.in_order.runs


def round_of(number, program, seed):
    """Returns what was seen in the round, and what is wrong, if anything is."""
    seen = Counter()
    try:
        compare(Gorace(program), seed, number, seen)
    except Wrong as wrong:
        return seen, failure(seed, number, wrong)
    return seen, ""


def missed(seen, count):
    """Gives what so many rounds should have met, and didn't often enough."""
    if count >= USUAL:
        yield from (f"no round met {word}" for word in graph.WORDS if not seen[word])
        wanted = ("fault", "deadlock", "limit", "some racy", "clean", "fewer")
        yield from (f"only {seen[it]} rounds met {it}" for it in wanted if seen[it] < ENOUGH)


def main():
    program, seed, numbers = rounds(__doc__, USUAL)
    with ProcessPoolExecutor(processors()) as pool:
        done = [*pool.map(partial(round_of, program=program, seed=seed), numbers, chunksize=8)]
    seen = sum((it for it, _ in done), Counter())
    failed = [wrong for _, wrong in done if wrong]
    failed += [f"FAILED: {it}\n{alone('--seed', seed, '--count', len(numbers))}" for it in missed(seen, len(numbers)) if not failed]
    for wrong in failed:
        print(wrong)
    print(f"{seen['runs']} runs of {len(numbers)} programs, {seen['judged']} of them judged with --reduce: {seen['some racy']} with a race in some runs")
    print(f"and not in others, {seen['clean']} clean")
    print(f"{len(numbers) - len(failed)} passed, {len(failed)} failed")
    return 1 if failed else 0


if __name__ == "__main__":
    sys.exit(main())
