"""The cases of tests/*/*.txt, as tests/run.py and tests/unproved.py read them.

A file's folder is the first word of its command lines; those in command/ give theirs whole. A file holds cases about one thing,
one after the other:

    -- front --           what comes before each input of the file; may be left out
    -- case NAME --
    -- args --            more words of the command line; each line gives one of some that do the same; may be left out
    -- shell --           what /bin/sh runs, where "$@" is the program with these words: `"$@" > /dev/full`; may be left out
    -- in --              standard input
    -- in escaped --      the same with \\t, \\r, \\x80 and \\\\; a \\ at the end of a line removes its newline
    -- in repeated --     the same with lines `0..9 * var x{n}`, each of which gives ten; ` / ` parts lines that are repeated
                          together, as `0..9 * lock w m p / unlock w m p`; or -- in repeated escaped --
    -- in cut 0..8 --     the same, of which the first 0, 1, .. 8 bytes are nine inputs, one for each run
    -- out --             standard output
    -- err --             standard error; may be left out where any will do
    -- status --          may be left out where it is 0

A check, and a race, that names no judge is made by each of JUDGES. They have to agree."""

import os
import pathlib
import re
import shlex

HERE = pathlib.Path(__file__).resolve().parent
HEAD = re.compile(r"^-- (front|case|args|shell|in|out|err|status)((?: [^\n]*)?) --\n", re.M)
JUDGES = {
    "check": (
        "--plain",
        "--shards 1",
        "--shards 1 --block 1",
        "--shards 2 --block 1",
        "--shards 2 --block 2",
        "--shards 3 --block 3",
        "--shards 4 --block 65536",
        "--shards 64 --block 2",
    ),
    "race": ("--plain", "--shards 1", "--shards 2 --block 1", "--shards 64"),
}
JUDGING = {"--plain", "--shards", "--block", "--help"}
MARKS = {"\n": "", "t": "\t", "r": "\r", "\\": "\\"}


class BadCase(Exception):
    pass


class Case:
    """Command lines that have to do the same by each of some inputs, and what they have to write."""

    def __init__(self, file, name, front, at):
        self.file, self.name, self.front, self.at = file, name, front, at
        self.args, self.shell, self.inputs = [[]], None, [front]
        self.out, self.err, self.status = b"", None, 0
        self.spans = {}

    @property
    def label(self):
        return f"{self.file.relative_to(HERE)}: {self.name}"

    def lines(self):
        command = self.file.parent.name
        if command == "command":
            return self.args
        lines = []
        for args in self.args:
            named = {word.split("=")[0] for word in args}
            judges = JUDGES.get(command, ("",)) if self.status != 3 and not named & JUDGING else ("",)
            lines += [[command, *args, *judge.split()] for judge in judges]
        return lines


def unescaped(body):
    mark = re.compile(r"\\(?:(\n|t|r|\\)|x([0-9a-f]{2}))")
    return mark.sub(lambda it: MARKS[it[1]] if it[1] else chr(int(it[2], 16)), body).encode("latin-1")


def repeated(body):
    def lines(it):
        part = it[3].replace(" / ", "\n") + "\n"
        return "".join(part.replace("{n}", str(n)) for n in range(int(it[1]), int(it[2]) + 1))

    return re.sub(r"^(\d+)\.\.(\d+) \* (.*)\n", lines, body, flags=re.M)


FORMS = {
    "": str.encode,
    "escaped": unescaped,
    "repeated": lambda body: repeated(body).encode(),
    "repeated escaped": lambda body: unescaped(repeated(body)),
}


def input_of(how, body):
    if how not in FORMS:
        raise BadCase(f"an input is {', '.join(filter(None, FORMS))} or cut, not {how}")
    return FORMS[how](body)


def inputs_of(how, front, body):
    """Returns each input of a case: one, or as many as it says at how many bytes it is cut."""
    cut = re.fullmatch(r"cut (\d+)\.\.(\d+)", how)
    if not cut:
        return [front + input_of(how, body)]
    whole = front + body.encode()
    return [whole[:length] for length in range(int(cut[1]), int(cut[2]) + 1)]


def take(case, kind, how, body, span):
    """Takes one part of a case."""
    case.spans[kind] = span
    if kind == "args":
        case.args = [shlex.split(line) for line in body.splitlines()]
    elif kind == "in":
        case.inputs = inputs_of(how, case.front, body)
    elif kind == "shell":
        case.shell = body.strip()
    elif kind == "out":
        case.out = body.encode()
    elif kind == "err":
        case.err = body.encode()
    else:
        case.status = int(body)


def cases_of(file):
    text = file.read_text(encoding="utf-8")
    heads = [*HEAD.finditer(text)]
    if not heads or heads[0].start() != 0:
        raise BadCase(f"{file}: begins with no line such as -- case NAME --")
    front, found = b"", []
    for head, after in zip(heads, [*heads[1:], None]):
        kind, how, end = head[1], head[2].strip(), after.start() if after else len(text)
        body = text[head.end() : end]
        if kind == "front":
            front = input_of(how, body)
        elif kind == "case":
            found.append(Case(file, how, front, head.end()))
        elif not found or kind in found[-1].spans:
            raise BadCase(f"{file}: {head[0].strip()} belongs to no case, or comes twice in it")
        else:
            take(found[-1], kind, how, body, (head.start(), end))
    names = [case.name for case in found]
    twice = {name for name in names if names.count(name) > 1}
    if twice:
        raise BadCase(f"{file}: two cases have the name {min(twice)}")
    return found


def files():
    return sorted(HERE.glob("*/*.txt"))


def all_cases(words=()):
    """Returns the cases whose label has one of the words; all, where there are no words."""
    found = [case for file in files() for case in cases_of(file)]
    for word in words:
        if not any(word in case.label for case in found):
            raise BadCase(f"no file of cases, and no case, has {word!r} in its name")
    return [case for case in found if not words or any(word in case.label for word in words)]
