#!/usr/bin/env python3
"""Tests the launcher, ./gorace, in a clone of two crates, where rt only leaves what the real one does.

    tests/launcher.py [WORD..]

A WORD picks the tests whose name has it. The last line is `N passed, M failed`."""

import os
import pathlib
import pty
import shutil
import subprocess
import sys
import tempfile
import time

from common import SECONDS, alone

LAUNCHER = pathlib.Path(__file__).resolve().parent.parent / "gorace"
NOBODY = 65534
RT = """#!/bin/sh
echo "${PWD##*/}: $1" >>../../said
[ ! -e broken ] || exit 1
mkdir -p out/rlib out/incremental
echo work >out/incremental/work
[ "$1" != run ] || { printf '#!/bin/sh\\necho "gorace $*"\\n' >out/gorace && chmod +x out/gorace; }
"""
READS = {"check": "a trace", "explain": "a trace", "edges": "a trace", "witness": "a trace", "draw": "a trace", "predict": "a trace",
         "run": "a program", "race": "a program", "explore": "a program"}


class Clone:
    """A clone that nothing was built in."""

    def __init__(self, room):
        self.top = pathlib.Path(room) / "a clone [1]"
        self.write("crates.txt", "low:\ngorace: low\n")
        self.write("crates/low/src/lib.rt", "")
        self.write("crates/low/specs/Lib.antt", "")
        self.write("crates/gorace/src/main.rt", "")
        self.write("bin/rt", RT)
        shutil.copy(LAUNCHER, self.top / "gorace")

    def write(self, name, text):
        file = self.top / name
        file.parent.mkdir(parents=True, exist_ok=True)
        file.write_text(text)
        file.chmod(0o755)

    def run(self, *words, given=subprocess.DEVNULL, **more):
        env = {"PATH": f"{self.top}/bin:{os.environ['PATH']}", "HOME": str(self.top / "home")}
        return subprocess.run([self.top / "gorace", *words], env=env, stdin=given, capture_output=True, text=True, timeout=SECONDS, **more)

    def built(self):
        """Which crates rt was asked for, since this was asked last."""
        file = self.top / "said"
        said = file.read_text().splitlines() if file.exists() else []
        file.unlink(missing_ok=True)
        return said

    def left(self):
        """The files below each crate's out/."""
        return sorted(str(it.relative_to(self.top / "crates")) for it in self.top.glob("crates/*/out/**/*") if it.is_file())


def equal(got, wanted):
    if got != wanted:
        raise AssertionError(f"-- wanted --\n{wanted}\n-- got --\n{got}")


def within(text, wanted):
    if wanted not in text:
        raise AssertionError(f"-- wanted within --\n{wanted}\n-- got --\n{text}")


def a_build_leaves_the_program(clone):
    ran = clone.run("check", "a b")
    equal((ran.returncode, ran.stdout), (0, "gorace check a b\n"))
    within(ran.stderr, "gorace: not built yet: proving every function and then building\n")
    equal(clone.built(), ["low: lib", "gorace: run"])
    equal(clone.left(), ["gorace/out/gorace"])
    equal(clone.run().stderr, "")
    equal(clone.built(), [])


def earlier_work_is_kept(clone):
    clone.write("crates/low/out/incremental/mine", "")
    clone.run()
    equal(clone.left(), ["gorace/out/gorace", "low/out/incremental/mine", "low/out/incremental/work"])


def a_build_that_failed_is_continued(clone):
    clone.write("crates/gorace/broken", "")
    ran = clone.run()
    equal(ran.returncode, 70)
    within(ran.stderr, "gorace: the build failed in gorace\n")
    equal((clone.top / "crates/low/out/rlib").is_dir(), True)
    (clone.top / "crates/gorace/broken").unlink()
    equal(clone.run().returncode, 0)
    equal(clone.left(), ["gorace/out/gorace"])


def the_newer_source_is_named(clone):
    clone.run()
    later = time.time() + 3600
    os.utime(clone.top / "crates/low/src/lib.rt", (later, later))
    within(clone.run().stderr, "gorace: crates/low/src/lib.rt is newer than the program: proving")


def who_cannot_write_is_told_so(clone):
    (clone.top / "crates/low").chmod(0o555)
    ran = clone.run(preexec_fn=(lambda: os.setuid(NOBODY)) if os.geteuid() == 0 else None)
    (clone.top / "crates/low").chmod(0o755)
    equal((ran.returncode, ran.stdout), (70, ""))
    within(ran.stderr, f"gorace: not built yet, and this user can't write into {clone.top}/crates/low\n")
    equal(clone.built(), [])


def at_a_terminal_it_says_what_it_reads(clone):
    clone.run()
    front, terminal = pty.openpty()
    for command, what in READS.items():
        equal(clone.run(command, given=terminal).stderr, f"gorace: reading {what} from the terminal; Ctrl-D ends it\n")
    equal(clone.run("check", "--help", given=terminal).stderr, "")
    os.close(front)
    os.close(terminal)


TESTS = (a_build_leaves_the_program, earlier_work_is_kept, a_build_that_failed_is_continued, the_newer_source_is_named,
         who_cannot_write_is_told_so, at_a_terminal_it_says_what_it_reads)


def wrong_in(test):
    """Returns what is wrong, or nothing."""
    with tempfile.TemporaryDirectory() as room:
        os.chmod(room, 0o755)
        try:
            test(Clone(room))
        except AssertionError as wrong:
            return f"FAILED {test.__name__}\n{wrong}\n{alone(test.__name__)}"
    return ""


def main(words):
    os.umask(0o022)
    tests = [it for it in TESTS if not words or any(word in it.__name__ for word in words)]
    if not tests:
        sys.exit(f"tests/launcher.py: no test has {' or '.join(words)} in its name")
    failed = [wrong for wrong in map(wrong_in, tests) if wrong]
    for wrong in failed:
        print(wrong)
    print(f"{len(tests) - len(failed)} passed, {len(failed)} failed")
    return 1 if failed else 0


if __name__ == "__main__":
    sys.exit(main(sys.argv[1:]))
