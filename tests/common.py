"""What the scripts of tests/ have in common: how long they wait for a program, and how they name one of their tests.

What fails is printed as `FAILED NAME`, with what was wanted and what was printed, and `alone: COMMAND`, which runs it alone."""

import argparse
import os
import shlex
import sys

PROGRAM = os.path.join(os.path.dirname(os.path.abspath(__file__)), "../crates/gorace/out/gorace")
# So long that a slow or busy machine doesn't reach it: who does hangs.
MINUTES = 30
SECONDS = 60 * MINUTES
NO_END = f"didn't end within {MINUTES} minutes"


def processors():
    """Returns how many processors this process may use."""
    return len(os.sched_getaffinity(0))


def alone(*words):
    """Returns the line with the command, as it can be typed in the folder where this script was started."""
    script, before = os.path.relpath(sys.argv[0]), ["", *sys.argv]
    named = [it for at, it in enumerate(sys.argv) if it.startswith("--program") or before[at] == "--program"]
    return "alone: " + shlex.join([script if "/" in script else f"./{script}", *named, *map(str, words)])


def runnable(program):
    """Returns the path of the built program, or ends where it can't be run."""
    path = os.path.realpath(program)
    if not os.access(path, os.X_OK):
        sys.exit(f"{sys.argv[0]}: {path} can't be run: build it by ./gorace, or name another by --program")
    return path


def rounds(doc, usual):
    """Reads the command line of a script of random rounds: returns the program, the seed, and the numbers of the rounds."""
    parser = argparse.ArgumentParser(description=doc, formatter_class=argparse.RawDescriptionHelpFormatter)
    parser.add_argument("--program", default=PROGRAM)
    parser.add_argument("--seed", type=int, default=1)
    parser.add_argument("--count", type=int, default=usual)
    parser.add_argument("--only", type=int, metavar="NUMBER")
    given = parser.parse_args()
    return runnable(given.program), given.seed, range(given.count) if given.only is None else [given.only]
