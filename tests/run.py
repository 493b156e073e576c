#!/usr/bin/env python3
"""Runs the cases of tests/*/*.txt by the built program and compares what it writes and how it ends.

    tests/run.py [--program PROGRAM] [--update] [WORD..]

A WORD picks the cases whose file or name has it; one that nothing has is refused. --update writes down what the program does now: read the difference before
you commit it. How a case is written: tests/cases.py. The last line is `N passed, M failed`."""

import argparse
import difflib
import itertools
import shlex
import subprocess
import sys
import xml.etree.ElementTree
from concurrent.futures import ThreadPoolExecutor

from cases import BadCase, all_cases
from common import NO_END, PROGRAM, SECONDS, alone, processors, runnable

WIDEST = 100


def ran(program, line, given, shell):
    front = ["/bin/sh", "-c", shell, "sh"] if shell else []
    it = subprocess.run([*front, program, *line], input=given, capture_output=True, timeout=SECONDS)
    return it.stdout, it.stderr, it.returncode


def difference(what, wanted, written):
    sides = [it.decode(errors="backslashreplace").splitlines() for it in (wanted, written)]
    return [*difflib.unified_diff(*sides, f"{what} wanted", f"{what} written", lineterm="")]


def drawing_fault(case, out):
    """Says why a drawing can't be shown: an SVG that is no XML, or a line that is too wide although it could be folded."""
    if case.file.parent.name != "draw" or case.status not in (0, 66):
        return ""
    if out.startswith(b"<svg"):
        try:
            xml.etree.ElementTree.fromstring(out)
        except xml.etree.ElementTree.ParseError as fault:
            return f"no XML: {fault}"
        return ""
    wide = [line for line in out.decode().splitlines() if len(line) > WIDEST and len(line.split()) > 1]
    return f"a line of {len(wide[0])} columns: {wide[0]}" if wide else ""


def wrong_in(case, out, err, status):
    wrong = [] if status == case.status else [f"status {status}, wanted {case.status}"]
    if out != case.out:
        wrong += difference("out", case.out, out)
    if case.err is not None and err != case.err:
        wrong += difference("err", case.err, err)
    fault = drawing_fault(case, out)
    return wrong + ([fault] if fault else [])


def tried(program, case):
    """Returns what is wrong with the case, by the first run that fails, and what the first one of all did."""
    first, told = None, []
    for line, given in itertools.product(case.lines(), case.inputs):
        try:
            did = ran(program, line, given, case.shell)
        except subprocess.TimeoutExpired:
            did = None
        first = first or did
        wrong = wrong_in(case, *did) if did else [NO_END]
        if wrong and not told:
            of_bytes = f" of {len(given)} bytes" if len(case.inputs) > 1 else ""
            told = [f"FAILED {case.label}: gorace {shlex.join(line)}{of_bytes}", *wrong, alone(case.label)]
    return told, first


def part(kind, body):
    return f"-- {kind} --\n{body.decode()}" + ("" if not body or body.endswith(b"\n") else "\n")


def update(file, done):
    """Writes into the file what the program did for its cases."""
    text = file.read_text(encoding="utf-8")
    for case, (out, err, status) in reversed(done):
        end = max([case.at, *(span[1] for span in case.spans.values())])
        begin = min([end, *(case.spans[kind][0] for kind in ("out", "err", "status") if kind in case.spans)])
        wrote = part("out", out) + (part("err", err) if case.err is not None else "")
        text = text[:begin] + wrote + (f"-- status --\n{status}\n" if status else "") + text[end:]
    file.write_text(text, encoding="utf-8")


def options():
    parser = argparse.ArgumentParser(description=__doc__, formatter_class=argparse.RawDescriptionHelpFormatter)
    parser.add_argument("--program", default=PROGRAM)
    parser.add_argument("--update", action="store_true")
    parser.add_argument("words", nargs="*", metavar="WORD")
    return parser.parse_args()


def main():
    given = options()
    try:
        cases = all_cases(given.words)
    except BadCase as fault:
        sys.exit(f"tests/run.py: {fault}")
    program = runnable(given.program)
    with ThreadPoolExecutor(processors()) as pool:
        done = [*pool.map(lambda case: tried(program, case), cases)]
    if given.update:
        for file in {case.file for case in cases}:
            update(file, [(case, first) for case, (_, first) in zip(cases, done) if case.file == file])
    failed = [told for told, _ in done if told]
    for told in failed:
        print("\n".join(told))
    print(f"{len(cases) - len(failed)} passed, {len(failed)} failed")
    return 1 if failed else 0


if __name__ == "__main__":
    sys.exit(main())
