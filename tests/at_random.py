#!/usr/bin/env python3
"""Compares what the program says of random traces and programs with a judge of its own, tests/graph.py.

    tests/at_random.py [--program PROGRAM] [--seed N] [--count N | --only NUMBER]

A round is one of three: a trace of random events that are legal; a run of a random program, by picks or by workers; a trace
that was damaged. Each is judged by `--plain` and by shards and blocks that take turns; a legal one's edges are listed, and a
witness of each variable is asked for. What differs is printed with the input. The last line is `N passed, M failed`."""

import random
import re
import shlex
import subprocess
import sys
from concurrent.futures import ThreadPoolExecutor

import graph
from common import NO_END, SECONDS, alone, processors, rounds

USUAL = 360
SHARDS = (1, 2, 3, 7, 64)
BLOCKS = (1, 5, 65536)
# A block costs a thread for each shard: with more events than these, blocks of one event are for two shards.
SLOW = 20
ENDS = {"main": 0, "fault": 10, "deadlock": 11, "limit": 12, "bad": 13}
VARS = "x y z x1 x2 x3 x4 x5 x6 x7 x8 x9".split()
OBJECTS = [f"var {it}" for it in VARS] + "goroutine a|goroutine b|goroutine e|chan d 0|mutex m|rwmutex r|once o|once q".split("|")
ACCESSES = ["go", "read", "write", "read", "write"]
GROUPS = "send recv|meet recvclosed close default|lock unlock|rlock runlock|trylock tryrlock tryfail|oncebegin onceend oncedone|exit fault"
STEPS = """read x|read y|write x 1|write y 2|send d 1|recv d|send c 2|recv c|lock m;read x;unlock m
lock m;write x 3;unlock m|rlock r;read y;runlock r|lock r;write y 4;unlock r|do o;write x 5;enddo o|do o;do q;read z;enddo q;enddo o
select send:d:6,recv:c default|select recv:d,send:c:7 default|select recv:d,recv:c block|select - default|write z 8"""
SELDOM = "close c|close d|unlock m|runlock r|send nil 1|recv nil|close nil|go e|go e|go a"
TRIES = "trylock m;read x|tryrlock r;read y|trylock m;write x 6;unlock m|trylock r;unlock r"


class Wrong(Exception):
    """What the program did otherwise than it should: of which command line and input."""

    def __init__(self, line, given, told, wanted):
        shown = given.decode(errors="backslashreplace")
        super().__init__(f"gorace {shlex.join(line)}\n-- in --\n{shown}-- told --\n{told}\n-- wanted --\n{wanted}")


def failure(seed, number, wrong):
    """Returns what is printed of a round that failed."""
    return f"FAILED round {number} of seed {seed}: {wrong}\n{alone('--seed', seed, '--only', number)}"


class Gorace:
    def __init__(self, program):
        self.program = program

    def told(self, given, *line):
        try:
            it = subprocess.run([self.program, *line], input=given, capture_output=True, timeout=SECONDS, close_fds=False)
        except subprocess.TimeoutExpired as late:
            raise Wrong(line, given, NO_END, "an end") from late
        return it.stdout.decode(), it.returncode

    def tells(self, wanted, given, *line):
        """Asks for this report and this status."""
        told = self.told(given, *line)
        if told != wanted:
            raise Wrong(line, given, told, wanted)


def judges(number, events):
    """Returns the plain judge's option and those of another one; fifteen numbers in a row give each shards with each block."""
    shards, block = SHARDS[number % 5], BLOCKS[number % 3]
    if block == 1 and events > SLOW:
        shards = min(shards, 2)
    return ["--plain"], ["--shards", str(shards), "--block", str(block)]


def look_at_witness(gorace, trace, var, race):
    """Asks for all accesses, each once and behind those before it, in which the race's second is followed by its first."""
    told, status = gorace.told(trace.text, "witness", var)
    lines = told.splitlines()
    order = [int(number) - 1 for number in re.findall(r"^(\d+) ", told, re.M)]
    wanted = [f"{at + 1} {trace.events[at][0]} {trace.events[at][1]} {trace.events[at][2]}" for at in order if at in trace.before]
    wanted.append(f"witness: {len(trace.before)} accesses")
    if (lines, status) != (wanted, 0) or not trace.is_reordering(order) or (race[1], race[0]) not in zip(order, order[1:]):
        raise Wrong(["witness", var], trace.text, told, f"a reordering in which {race[1] + 1} stands directly before {race[0] + 1}")
    swapped = trace.swapped(order)
    if swapped and trace.is_reordering(swapped):
        raise Wrong(["witness", var], trace.text, told, "that two accesses of which one happens before the other can't be swapped")


def look_at_legal(gorace, trace, seen):
    gorace.tells((trace.edges_told(), 0), trace.text, "edges")
    races = trace.reported()
    for var in trace.vars:
        if var in races:
            look_at_witness(gorace, trace, var, races[var])
            seen.add("a witness")
        else:
            gorace.tells(("no such race\n", 14), trace.text, "witness", var)
    seen.update(event[0] for event in trace.events)
    seen.add("racy" if races else "clean")


def look_at(gorace, text, number, seen):
    """Compares what both judges say of a trace with what the graph says, and then its edges and witnesses."""
    try:
        trace = graph.Trace(text)
    except (IndexError, KeyError, ValueError) as why:
        raise Wrong(["check"], text, "that it is a trace", f"a fault of the text: {why!r}") from why
    for judge in judges(number, len(trace.events)):
        gorace.tells(trace.told(), text, "check", *judge)
    if trace.broken is None:
        look_at_legal(gorace, trace, seen)
    else:
        seen.add(trace.broken[1])
    return trace


def declared(chance):
    """Returns the declarations in a random order."""
    lines = [*OBJECTS, f"chan c {chance.choice((1, 1, 2))}"]
    chance.shuffle(lines)
    return lines


def event(chance, run, words, var):
    """Returns an event with one of these words, or an access of the variable; its value is mostly the right one."""
    word = chance.choice(words)
    if word in ("exit", "close", "fault") and chance.random() < 0.9:
        word = chance.choice(("go", "read", "write"))
    who = chance.choice(sorted(run.started) if chance.random() < 0.9 else ["main", "a", "b", "e"])
    chan = chance.choice("cd") if word in ("close", "recvclosed") or chance.random() < 0.1 else "d" if word == "meet" else "c"
    lock = chance.choice("mr")
    once = chance.choice("oq")
    value = str(chance.randrange(3))
    right = value if chance.random() < 0.1 else run.right_value(word, var, chan)
    cases = ",".join(f"{chance.choice(('send', 'recv'))}:{chance.choice(('c', 'd', 'nil'))}" for _ in range(chance.randrange(3)))
    cause = chance.choice((f"send:{chan}", f"close:{chan}", "close:nil", f"unlock:{lock}", "runlock:r"))
    rest = {
        "go": [chance.choice("abe")],
        "exit": [],
        "read": [var, right],
        "write": [var, value],
        "send": [chan, value],
        "recv": [chan, right],
        "meet": [chance.choice(("main", "a", "b", "e")), chan, value],
        "recvclosed": [chan],
        "close": [chan],
        "default": [cases or "-"],
        "fault": [cause],
        **{it: [once] for it in ("oncebegin", "onceend", "oncedone")},
        **{it: [lock] for it in ("lock", "unlock", "trylock", "tryfail")},
        **{it: ["r"] for it in ("rlock", "runlock", "tryrlock")},
    }
    return [word, who, *rest[word], "p"] + (["q"] if word == "meet" else [])


def made(chance):
    """Returns a legal trace, with some groups of words: of events that are tried those that break no rule. Seldom one more, that does."""
    version, objects = chance.choice((1, 2, 2, 2)), declared(chance)
    words = ACCESSES + 2 * [word for group in GROUPS.split("|") if chance.random() < 0.35 for word in group.split()]
    run, events = graph.Run(objects), []
    early = [["go", "main", who, "p"] for who in "abe"[: chance.randrange(4)]]
    # Mostly each variable has two accesses: of more than one race only one is reported.
    pool = chance.sample(VARS * 2, len(VARS) * 2)
    for number in range(8 + chance.randrange(200)):
        tried = early[number] if number < len(early) else event(chance, run, words, pool[-1])
        is_late = chance.random() < 0.002
        if (version == 1 and tried[0].startswith("try")) or (run.broken(tried) and not is_late):
            continue
        events.append(" ".join(tried))
        if is_late:
            break
        run.take(tried)
        if tried[0] in ("read", "write"):
            pool = pool[:-1] or VARS * 2
    return ("\n".join([f"gotrace {version}", *objects, *events]) + "\n").encode()


def program(chance):
    """Returns a program of three goroutines or of four."""
    version = chance.choice((1, 2, 2))
    steps = STEPS.replace("\n", "|").split("|") * 3 + SELDOM.split("|") + (TRIES.split("|") * 4 if version == 2 else [])
    place = iter(range(1, 1000))
    lines = [f"goprogram {version}", *declared(chance)]
    for who in ["main", *(line.split()[1] for line in lines if line.startswith("goroutine"))]:
        body = ["go a", "go b"] * (who == "main") + [step for _ in range(chance.randrange(3, 8)) for step in chance.choice(steps).split(";")]
        lines += [f"body {who}", *(f"{step} p:{next(place)}" for step in [*body, "exit"])]
    return ("\n".join(lines) + "\n").encode()


def end_of(trace, told, limit):
    """Returns how a run says that it ended, where its trace bears that out."""
    last = trace.events[-1] if trace.events else ["", ""]
    is_so = {"main": last[:2] == ["exit", "main"], "fault": last[0] == "fault", "limit": len(trace.events) == limit}
    end = told[told.rfind("end: ") + 5 : -1]
    first = end.partition(" ")[0]
    if not is_so.get(first, not is_so["main"] and not is_so["fault"]) or first not in ENDS:
        raise Wrong(["race"], trace.text, told, "another end")
    return end


def run_a_program(gorace, chance, number, seen):
    """Compares a run's trace with the graph, and, where a run can be had twice, what is said of it with what is said of its trace."""
    text, limit = program(chance), chance.choice((5, 100, 100, 100))
    by = ["--limit", str(limit)]
    workers = chance.choice((0, 0, 1, 4))
    if workers:
        by += ["--workers", str(workers), "--seed", str(chance.randrange(1000))]
    else:
        by += ["--picks", ",".join(str(chance.randrange(1000)) for _ in range(32))]
    told, status = gorace.told(text, "run", *by)
    if status not in ENDS.values():
        raise Wrong(["run", *by], text, (told, status), "a trace")
    trace = look_at(gorace, told.encode(), number, seen)
    if trace.broken:
        raise Wrong(["run", *by], text, told, "a legal trace")
    if workers < 2:
        end = end_of(trace, gorace.told(text, "race", *by)[0], limit)
        report, judged = trace.told()
        wanted = report + f"end: {end}\n", judged or status
        if ENDS[end.partition(" ")[0]] != status:
            raise Wrong(["run", *by], text, status, f"the status of end: {end}")
        for judge in judges(number, len(trace.events)):
            gorace.tells(wanted, text, "race", *by, *judge)
        seen.add(end.partition(" ")[0])


def judge_a_trace(gorace, chance, number, seen):
    look_at(gorace, made(chance), number, seen)


def cut(chance, text):
    return text[: chance.randrange(len(text))]


def another_byte(chance, text):
    at = chance.randrange(len(text))
    return text[:at] + bytes([chance.choice(b"\n\t\x80 01xam:-")]) * chance.randrange(3) + text[at + 1 :]


def some_line(chance, lines):
    """Returns the number of a line, mostly of an event's."""
    front = len(OBJECTS) + 2
    return chance.randrange(front if len(lines) > front and chance.random() < 0.8 else 0, len(lines))


def moved_lines(chance, text):
    lines = text.splitlines(keepends=True)
    one, other = some_line(chance, lines), some_line(chance, lines)
    lines.insert(other, lines[one] if chance.random() < 0.3 else lines.pop(one))
    return b"".join(lines)


def without_a_line(chance, text):
    lines = text.splitlines(keepends=True)
    del lines[some_line(chance, lines)]
    return b"".join(lines)


def another_word(chance, text):
    lines = [line.split(b" ") for line in text.splitlines()]
    line, other = lines[some_line(chance, lines)], lines[some_line(chance, lines)]
    at = chance.randrange(len(line))
    line[at] = other[min(at, len(other) - 1)]
    return b"".join(b" ".join(line) + b"\n" for line in lines)


DAMAGES = (cut, another_byte, moved_lines, without_a_line, another_word)


def damage(gorace, chance, number, seen):
    """Asks each judge for one report of a damaged trace, and for the graph's where it is a trace still."""
    text = chance.choice(DAMAGES)(chance, made(chance))
    report, status = told = gorace.told(text, "check", "--plain")
    seen.add(f"status {status}")
    if not report.startswith("line "):
        look_at(gorace, text, number, seen)
    for line in (["check", *judges(number, len(text) // 20)[1]], ["check", "--shards", "4"]):
        gorace.tells(told, text, *line)
    if status in (1, 2):
        for line in (["edges"], ["witness", "x"], ["draw"]):
            gorace.tells(told, text, *line)


KINDS = (judge_a_trace, run_a_program, damage)


def round_of(gorace, seed, number):
    """Returns what was seen in the round, and what is wrong, if anything is."""
    chance, seen = random.Random(f"{seed} {number}"), set()
    try:
        KINDS[number % 3](gorace, chance, number, seen)
    except Wrong as wrong:
        return seen, failure(seed, number, wrong)
    return seen, ""


def unseen(found):
    """Returns what so many rounds should have met, and didn't: each word, rule, status and end, and enough races."""
    wanted = {*graph.WORDS, *ENDS, "a witness", *(f"status {it}" for it in (0, 1, 2, 66))}
    missed = wanted - set().union(*found)
    few = [it for it in ("racy", "clean") if sum(it in seen for seen in found) < len(found) // 5]
    return sorted(missed) + few


def main():
    program, seed, numbers = rounds(__doc__, USUAL)
    with ThreadPoolExecutor(processors()) as pool:
        done = [*pool.map(lambda number: round_of(Gorace(program), seed, number), numbers)]
    failed = [wrong for _, wrong in done if wrong]
    if len(numbers) >= USUAL and not failed and (missed := unseen([seen for seen, _ in done])):
        failed.append(f"FAILED: no round, or too few, met: {', '.join(missed)}\n{alone('--seed', seed, '--count', len(numbers))}")
    for wrong in failed:
        print(wrong)
    print(f"{len(numbers) - len(failed)} passed, {len(failed)} failed")
    return 1 if failed else 0


if __name__ == "__main__":
    sys.exit(main())
