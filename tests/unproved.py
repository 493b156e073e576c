#!/usr/bin/env python3
"""Runs the cases of tests/*/*.txt with no proof, in some minutes: writes them as tables into a copy of the crate program_tests and has
`rt try --test` build and run that.

    tests/unproved.py [WORD..]

A WORD picks cases as for tests/run.py. It stops at an index out of bounds, an overflow or a bad access too. Left out are long inputs, help texts, what comes on standard
error and what a shell does, which tests/run.py has by the built program."""

import os
import re
import shutil
import subprocess
import sys
import tempfile

from cases import HERE, BadCase, all_cases
from common import NO_END, SECONDS, alone

ROOT = HERE.parent
LONGEST = 4096
WITHOUT = shutil.ignore_patterns("out", "proofs", "must-fail", "wrong")
MARKS = {10: "\\n", 9: "\\t", 13: "\\r", 34: '\\"', 92: "\\\\"}
# A constant has at most 140,000 expressions, of which each byte of a text is one.
LARGEST = 100_000
TABLE = """#[test]
fn cases_{number}(rt: HostRuntime) -> Result<(), Fail> {{
    for row in &ROWS_{number} {{
        let wrong = first_wrong(&rt, row)?;
        assert!(rt; wrong.is_none(), "{{}}, line {{wrong:?}}", row.0);
    }}
    Ok(())
}}

static ROWS_{number}: [Row; {count}] = [
{rows}];
"""
LIBRARY = "//! The cases of tests/.\n#![tactic(auto)]\n\n#[cfg(test)]\nmod golden;\n"


def literal(data):
    return '"' + "".join(MARKS.get(it) or (chr(it) if 32 <= it < 127 else f"\\x{it:02x}") for it in data) + '"'


def words_of(line):
    return "&[" + ", ".join(literal(word.encode()) for word in ["gorace", *line]) + "]"


def row(case, given):
    lines = ", ".join(words_of(line) for line in case.lines())
    return f"    ({literal(case.label.encode())}, &[{lines}], b{literal(given)}, {case.status}, b{literal(case.out)}),\n"


def rows_of(case):
    """Returns a row for each input, where the program can be asked for it in process."""
    if case.shell or {"--help", "--version"} & {word for line in case.lines() for word in line}:
        return []
    return [row(case, given) for given in case.inputs if len(given) <= LONGEST]


def tables_of(rows):
    """Returns the text of the tables, each with as many rows as a constant can have."""
    tables, size = [[]], 0
    for it in rows:
        if size + len(it) > LARGEST:
            tables, size = [*tables, []], 0
        tables[-1].append(it)
        size += len(it)
    return "\n".join(TABLE.format(number=at, count=len(it), rows="".join(it)) for at, it in enumerate(tables))


def write_crate(room, rows):
    """Makes a copy of the crates in which program_tests is the tables alone."""
    shutil.copy(ROOT / "crates.txt", room)
    shutil.copytree(ROOT / "crates", f"{room}/crates", ignore=WITHOUT)
    source = HERE / "golden.rt.in"
    text = source.read_text(encoding="utf-8").replace("@TABLES@", tables_of(rows))
    folder = f"{room}/crates/program_tests"
    shutil.rmtree(f"{folder}/src")
    os.makedirs(f"{folder}/src")
    for name, body in (("lib.rt", LIBRARY), ("golden.rt", text)):
        with open(f"{folder}/src/{name}", "w", encoding="utf-8") as it:
            it.write(body)
    return folder


def tried(rows):
    """Returns how `rt try` ended over the tables of these rows, and what it printed."""
    with tempfile.TemporaryDirectory() as room:
        command = ["rt", "try", "--test", "--steps", "1", "--seconds", str(SECONDS)]
        folder = write_crate(room, rows)
        it = subprocess.run(command, cwd=folder, stdout=subprocess.PIPE, stderr=subprocess.STDOUT, text=True, errors="replace")
    return it.returncode, re.sub(r"(?m)^test result: .*\n", "", it.stdout)


def main(words):
    try:
        cases = all_cases(words)
    except BadCase as fault:
        sys.exit(f"tests/unproved.py: {fault}")
    rows = [it for case in cases for it in rows_of(case)]
    if not rows:
        sys.exit(f"tests/unproved.py: of {' '.join(words)} it can try none: tests/run.py does, by the built program")
    status, told = tried(rows)
    if status == 0:
        print(f"{len(rows)} passed, 0 failed")
        return 0
    print(told)
    if "no-answer: the program did not end within the time limit" in told:
        print(NO_END)
    for label in dict.fromkeys(case.label for case in cases if f"{case.label}, line " in told):
        print(alone(label))
    print("0 passed, 1 failed: the first that is not as expected, above")
    return 1


if __name__ == "__main__":
    sys.exit(main(sys.argv[1:]))
