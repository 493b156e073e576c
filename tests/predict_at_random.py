#!/usr/bin/env python3
"""Compares what `gorace predict` says of small random traces with all other runs of their goroutines, by tests/predictions.py.

    tests/predict_at_random.py [--program PROGRAM] [--seed N] [--count N | --only NUMBER]

A round is a trace, of which predictions are asked for in the recorded order and with --turned. Each has to be one of those that
exist, and its certificate such a run, in which `gorace check` sees the race; on each other name there is `no such race`. In most
rounds values differ, and a try fails only at a lock that is locked: of these the shares that were found are told. In some the trace
is longer, and only certificates are looked at. What differs is printed with the input. The last line is `N passed, M failed`."""

import random
import re
import sys
from collections import Counter
from concurrent.futures import ProcessPoolExecutor
from functools import partial

import graph
import predictions
import random_traces
from at_random import Gorace, Wrong, failure
from common import alone, processors, rounds

USUAL = 1200
SMALL = 12
LONG = 40
WAYS = {"recorded": [], "turned": ["--turned"]}
# How many in a hundred have to be found, where enough exist: some fewer than are found of many.
WANTED = {("recorded", "in order"): 90, ("turned", "exist"): 99}
ENOUGH = 40
PREDICTED = re.compile(r"predicted race on (\w+): .* \(event (\d+)\), .* \(event (\d+)\)\n")
NO_RACE = "no such race\n", 14


def side(trace, at):
    word, who, *_, place = trace.events[at]
    return f"{word} by {who} at {place} (event {at + 1})"


def report_of(trace, found):
    """Returns the report with these predictions, in the order of the variables, and its status."""
    report, status = trace.told()
    lines = [f"predicted race on {var}: {side(trace, one)}, {side(trace, other)}\n" for var, (one, other) in found.items()]
    return report + "".join(lines) + f"predicted: {len(lines)}\n", 66 if lines else status


def look_at_certificate(gorace, trace, var, pair, line):
    """Asks for the run that shows the race, and for a check of it."""
    text, status = gorace.told(trace.text, *line)
    try:
        certificate = graph.Trace(text.encode())
        lacks = predictions.lacks(trace, certificate, var) or ("status 0" if status else "")
    except (IndexError, KeyError, ValueError) as why:
        lacks = f"that it is a trace: {why!r}"
    if lacks:
        raise Wrong(line, trace.text, text, lacks)
    last = [predictions.without_value(event) for event in certificate.events[-2:]]
    if sorted(last) != sorted(predictions.without_value(trace.events[at]) for at in pair):
        raise Wrong(line, trace.text, text, f"events {pair[0] + 1} and {pair[1] + 1} at its end")
    order = [trace.events.index(event) for event in certificate.events[:-2]]
    if "--turned" not in line and order != sorted(order):
        raise Wrong(line, trace.text, text, "the recorded order")
    # An earlier pair on the variable may race there, too, and then check reports that one.
    gorace.tells(certificate.told(), text.encode(), "check")


def look_at(gorace, trace, exist, way, chance):
    """Returns the pairs that are told, by their variables. The pairs that exist may be unknown."""
    told, status = gorace.told(trace.text, "predict", *WAYS[way])
    found = {var: (int(one) - 1, int(other) - 1) for var, one, other in PREDICTED.findall(told)}
    found = {var: found[var] for var in trace.vars if var in found}
    if (told, status) != report_of(trace, found):
        raise Wrong(["predict", *WAYS[way]], trace.text, (told, status), report_of(trace, found))
    for var, pair in found.items():
        if exist is not None and pair not in exist[var]:
            pairs = ", ".join(f"{one + 1} and {other + 1}" for one, other in sorted(exist[var]))
            raise Wrong(["predict", *WAYS[way]], trace.text, told, f"one of the pairs of {var} with which runs end: {pairs or 'there are none'}")
        look_at_certificate(gorace, trace, var, pair, ["predict", var, *WAYS[way]])
    name = chance.choice([it for it in [*trace.vars, "main", "c", "m", "none"] if it not in found])
    gorace.tells(NO_RACE, trace.text, "predict", name, *WAYS[way])
    return found


def compare(gorace, seed, number, seen):
    chance = random.Random(f"{seed} {number}")
    is_usual, is_long = number % 4 > 0, number % 8 == 7
    trace = graph.Trace(random_traces.trace(chance, is_usual, LONG if is_long else SMALL))
    exist = None if is_long else predictions.predicted(trace)
    found = {way: look_at(gorace, trace, exist, way, chance) for way in WAYS}
    if lost := set(found["recorded"]) - set(found["turned"]):
        raise Wrong(["predict", "--turned"], trace.text, sorted(found["turned"]), f"what is found without --turned: {sorted(lost)}")
    seen.update(event[0] for event in trace.events)
    if is_usual and not is_long:
        seen["exist"] += len(predictions.predicted(trace, has_strict_tries=True))
        seen["in order"] += len(predictions.predicted(trace, has_strict_tries=True, is_in_order=True))
        seen.update({way: len(found[way]) for way in WAYS})


def round_of(number, program, seed):
    """Returns what was seen in the round, and what is wrong, if anything is."""
    seen = Counter()
    try:
        compare(Gorace(program), seed, number, seen)
    except Wrong as wrong:
        return seen, failure(seed, number, wrong)
    return seen, ""


def missed(seen, count):
    """Gives each word that so many rounds should have met, and didn't, and each share that is too small."""
    if count >= USUAL:
        yield from (f"no round met {word}" for word in graph.WORDS if not seen[word])
        yield from [f"only {seen['exist']} exist"] * (seen["exist"] < ENOUGH)
    for (way, of), share in WANTED.items():
        if seen["exist"] >= ENOUGH and seen[way] * 100 < share * seen[of]:
            yield f"fewer than {share} in a hundred were found: {way}"


def main():
    program, seed, numbers = rounds(__doc__, USUAL)
    with ProcessPoolExecutor(processors()) as pool:
        done = [*pool.map(partial(round_of, program=program, seed=seed), numbers, chunksize=8)]
    seen = sum((it for it, _ in done), Counter())
    failed = [wrong for _, wrong in done if wrong]
    failed += [f"FAILED: {it}\n{alone('--seed', seed, '--count', len(numbers))}" for it in missed(seen, len(numbers)) if not failed]
    for wrong in failed:
        print(wrong)
    shares = ", ".join(f"{way} {seen[way]} ({seen[way] / max(1, seen['exist']):.1%})" for way in WAYS)
    print(f"of {seen['exist']} variables on which another run has a race, {seen['in order']} in the recorded order, were found: {shares}")
    print(f"{len(numbers) - len(failed)} passed, {len(failed)} failed")
    return 1 if failed else 0


if __name__ == "__main__":
    sys.exit(main())
