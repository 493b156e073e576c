#!/usr/bin/env python3
"""Runs the commands of the documents and compares what they print.

usage: docs/check_commands.py PROGRAM [--recorder]

PROGRAM is the built gorace, as crates/gorace/out/gorace, or a command of one word that runs it. With "-" nothing
is run, and links, paths, promises, quotations and rows are looked at alone.

- A block marked `console` has commands after "$ " (continued after "> ") and what each prints, on
  standard output and standard error. It runs in a copy of the repository's examples and recorder.
  Blocks that record Go programs need Go, and run with --recorder alone.
- A table with the columns File, Report and Status has a row for each file of its page's folder: a trace
  is checked, a program run and judged with --picks 0. No file may be without a row. A column All runs has the counts of
  `gorace explore`, but those that are 0, of the program in programs/ that has the file's name.
- A link to a file of the repository leads to one, and to a heading of it.
- A path that a table or docs/PROVED.md names, as race_text/src/form or race_model/specs/Order, is there, and so
  is one of the column Files in the crate of the column Crate; and each function and clause that a table of
  promises names, in docs/PROVED.md or in a crate's README, and each edit that docs/WRONG_BODIES.md names.
- A block marked `antt` or `rust` and with a file, as race_model/specs/Race or race_legal/src/locks, is quoted as it is there, but for how far
  all of it is indented.
- No page has a phrase of PLAINER, outside of code: each has a plainer one.

docs/GETTING_STARTED.md is followed by recorder/test.sh.
"""

import functools
import pathlib
import re
import shutil
import subprocess
import sys
import tempfile
import textwrap

ROOT = pathlib.Path(__file__).resolve().parent.parent
FOLLOWED_ELSEWHERE = {"docs/GETTING_STARTED.md"}
NEEDS_GO = re.compile(r"gorec|go build")
MINUTES = 30
PLAINER = (
    (r"(?:want|lack) of memory", "out of memory"),
    (r"memory aside", "unless out of memory"),
    (r"st(?:ands?|ood|anding) for", "means, is, represents"),
    (r"told", "gets the answer, is reported"),
    (r"(?:stands?|stood|standing) (?:in|at|on|behind|before|after|first|last|there|here)", "is, comes"),
    (r"behind(?! an interface)", "after"),
    (r"(?:a|the|each|every) fronts? of|fronts of|in front of", "prefix of, before"),
    (r"(?:the|a|its|each|own|whose|main's) begin|(?:the|its|their) begins|begins of", "start of"),
    (r"some (?:ten|twenty|\d[\d,.]*)", "about"),
    (r"(?:this|the|one|our) house(?:'s)?", "this project"),
    (r"hangs? together", "is consistent"),
    (r"by halves", "by binary search"),
    (r"in the square of", "quadratic in"),
    (r"(?:is|are|was|were) said of", "says of, holds for"),
    (r"what was to (?:be|come)", "the rest"),
    (r"(?:is|are|to be) had", "is available"),
    (r"it (?:is|isn't) so that", "a plain sentence"),
    (r"(?:there|here|where|what)of", "of it, of which"),
    (r"of several the", "the .. of them"),
)


def pages():
    found = [*ROOT.glob("*.md"), *ROOT.glob("docs/*.md"), *ROOT.glob("examples/**/*.md")]
    found += [*ROOT.glob("crates/*/README.md"), ROOT / "recorder/README.md"]
    return sorted(found)


def name(page):
    return str(page.relative_to(ROOT))


def without_blocks(text):
    return re.sub(r"(?ms)^```.*?^```$", "", text)


class Failures:
    def __init__(self):
        self.count = 0

    def add(self, where, what):
        self.count += 1
        print(f"{where}: {what}")

    def compare(self, where, wanted, got):
        if wanted != got:
            self.add(where, "wanted\n  " + "\n  ".join(wanted) + "\nbut got\n  " + "\n  ".join(got))


def make_copy(folder, program):
    """What a reader has in a clone, with the program in the launcher's place."""
    shutil.copytree(ROOT / "examples", folder / "examples")
    shutil.copytree(ROOT / "recorder", folder / "recorder")
    shutil.copy(ROOT / "gorec", folder)
    launcher = folder / "gorace"
    launcher.write_text(f'#!/bin/sh\nexec {program} "$@"\n')
    launcher.chmod(0o755)


def commands_of(block):
    """The commands of a block, each with the lines that it prints."""
    commands = []
    for line in block.splitlines():
        if line.startswith("$ "):
            commands.append((line[2:], []))
        elif line.startswith("> ") and commands and not commands[-1][1]:
            commands[-1] = (commands[-1][0] + "\n" + line[2:], [])
        elif commands:
            commands[-1][1].append(line)
        else:
            raise ValueError(f"no command before {line!r}")
    return commands


def ran(words, folder, **given):
    """What a command prints, and its status."""
    try:
        it = subprocess.run(words, text=True, cwd=folder, timeout=60 * MINUTES, stdout=subprocess.PIPE, stderr=subprocess.STDOUT, **given)
    except subprocess.TimeoutExpired:
        return f"didn't end within {MINUTES} minutes", None
    return it.stdout, it.returncode


def run_block(commands, folder):
    """What each command prints; all run in one shell, and the next one sees the last status."""
    script = "".join(f"{command}\n__at=$?; printf '\\n@@@\\n'; (exit $__at)\n" for command, _ in commands)
    return [part.strip("\n").splitlines() for part in ran(["bash"], folder, input=script)[0].split("\n@@@\n")]


def check_blocks(page, folder, with_recorder, failures):
    count = 0
    for block in re.findall(r"(?ms)^```console\n(.*?)^```$", page.read_text()):
        if NEEDS_GO.search(block) and not with_recorder:
            continue
        commands = commands_of(block)
        for (command, wanted), got in zip(commands, run_block(commands, folder)):
            failures.compare(f"{name(page)}: {command}", wanted, got)
            count += 1
    return count


def tables_of(text):
    """Each table: its rows, by the names of their columns."""
    for table in re.findall(r"(?m)(?:^\|.*\|$\n)+", text):
        rows = [[cell.strip() for cell in re.split(r"(?<!\\)\|", line)[1:-1]] for line in table.splitlines()]
        yield [dict(zip(rows[0], row)) for row in rows[2:]]


def report_in(cell):
    """The lines that a cell names; the count of a single race is left out there."""
    lines = re.findall(r"`([^`]+)`", cell)
    races = [i for i, line in enumerate(lines) if line.startswith("race on ")]
    if races and not any(line.startswith("races: ") for line in lines):
        lines.insert(races[-1] + 1, f"races: {len(races)}")
    return lines


def file_of(page, named):
    for folder in (page.parent, page.parent / "programs"):
        if (folder / named).is_file():
            return folder / named
    return None


def run_file(file, picks, folder):
    words = ["check"] if file.suffix == ".gotrace" else ["race", "--picks", picks]
    with file.open() as text:
        told, status = ran([folder / "gorace", *words], folder, stdin=text)
    return told.splitlines(), str(status)


def counts_of_all_runs(program, folder):
    with program.open() as text:
        told, _ = ran([folder / "gorace", "explore"], folder, stdin=text)
    return re.sub(r", (?!clean)\w+: 0\b", "", (told.splitlines() or [""])[-1])


def check_all_runs(page, file, cell, folder, failures):
    """Looks at the counts in a cell, and returns the program, if the cell has any."""
    program = page.parent / "programs" / (file.stem + ".goprogram")
    if not re.fullmatch("`[^`]*`", cell):
        return []
    if folder:
        failures.compare(f"{name(page)}: {program.name}", [cell.strip("`")], [counts_of_all_runs(program, folder)])
    return [program]


def check_tables(page, folder, failures):
    count, named, file = 0, set(), None
    for table in tables_of(without_blocks(page.read_text())):
        for row in table:
            report = next((row[column] for column in row if column.startswith("Report")), None)
            if report is None or "File" not in row or "Status" not in row:
                continue
            picks = re.search(r"--picks ([\d,]+)", row["File"])
            if not picks:
                file = file_of(page, row["File"].strip("`"))
                if file is None:
                    failures.add(name(page), f"no file {row['File']}")
                    continue
                named.add(file)
                named.update(check_all_runs(page, file, row.get("All runs", ""), folder, failures))
            if folder is None:
                continue
            lines, status = run_file(file, picks.group(1) if picks else "0", folder)
            failures.compare(f"{name(page)}: {row['File']}", [*report_in(report), row["Status"]], [*lines, status])
            count += 1
    if named:
        files = {f for f in [*page.parent.glob("*"), *page.parent.glob("programs/*")]
                 if f.suffix in (".gotrace", ".goprogram")}
        for file in sorted(files - named):
            failures.add(name(page), f"no row for {file.name}")
    return count


def anchors_of(page):
    headings = re.findall(r"(?m)^#+ (.*)$", without_blocks(page.read_text()))
    plain = [re.sub(r"[`*]|\[([^]]*)\]\([^)]*\)", r"\1", heading) for heading in headings]
    return {re.sub(r"[^\w\- ]", "", heading.lower()).replace(" ", "-") for heading in plain}


def check_links(page, failures):
    links = re.findall(r"\]\(([^)\s]+)\)", without_blocks(page.read_text()))
    for link in links:
        if "://" in link:
            continue
        path, _, anchor = link.partition("#")
        target = (page.parent / path).resolve() if path else page
        if not target.exists():
            failures.add(name(page), f"the link {link} leads nowhere")
        elif anchor and anchor not in anchors_of(target):
            failures.add(name(page), f"no heading for the link {link}")
    return len(links)


def check_paths(page, failures):
    """Paths in tables, and in all of docs/PROVED.md, that begin with a crate and its folder, with the names after a comma."""
    count = 0
    for line in re.findall(r"(?m)^.*$" if page.name == "PROVED.md" else r"(?m)^\|.*\|$", without_blocks(page.read_text())):
        for crate, folder, first, rest in re.findall(
                r"\b(?:crates/)?(race_\w+|gorace)/(src|specs|proofs)/([\w/]+)((?:, [A-Za-z]\w*)*)(?=[ ,;:|.`)]|$)", line):
            suffix = ".rt" if folder == "src" else ".antt"
            for named in [first, *rest.split(", ")[1:]]:
                here = ROOT / "crates" / crate / folder
                if not (here / (named + suffix)).exists() and not (here / named).exists():
                    failures.add(name(page), f"no {crate}/{folder}/{named}{suffix}")
                count += 1
    for table in tables_of(without_blocks(page.read_text())):
        for row in table:
            for folder, listed in re.findall(r"\b(src|specs|proofs)/(\w+(?:, \w+(?![\w/]))*)", row.get("Files", "")):
                for named in listed.split(", "):
                    here = ROOT / "crates" / row.get("Crate", "") / folder / named
                    if row.get("Crate", "").startswith("race_") and not list(here.parent.glob(f"{named}.*")):
                        failures.add(name(page), f"no {row['Crate']}/{folder}/{named}")
                    count += 1
    return count


def wrong_bodies_of(item):
    """The edits that an item names, as `race_edges/NAME, *OTHER*` or `race_edges/ and race_clock/NAME`: crate, folder, name.
    A name in italics stands in the folder that the gate doesn't try."""
    found = re.fullmatch(r"(?:(race_\w+)/ and )?(race_\w+)/([\w*, ]+)", item)
    for crate in (found[1], found[2]) if found else ():
        for named in found[3].split(", ") if crate else ():
            yield crate, "wrong" if named.startswith("*") else "must-fail", named.strip("*")


def check_wrong_bodies(failures):
    page, count = ROOT / "docs/WRONG_BODIES.md", 0
    for table in tables_of(page.read_text()):
        for item in (item for row in table for item in row["Refused by"].split("; ")):
            for crate, folder, named in wrong_bodies_of(item):
                if not (ROOT / "crates" / crate / folder / (named + ".edit")).exists():
                    failures.add(name(page), f"no wrong body {crate}/{folder}/{named}")
                count += 1
    return count


@functools.cache
def names_in(crate):
    """The functions, types, modules, clauses and definitions of a crate, or of all by "*"."""
    code = "\n".join(f.read_text() for f in ROOT.glob(f"crates/{crate}/src/**/*.rt"))
    specs = "\n".join(f.read_text() for f in ROOT.glob(f"crates/{crate}/specs/*.antt"))
    found = set(re.findall(r"\b(?:fn|struct|enum|type|trait|mod)\s+(\w+)", code)) | set(re.findall(r"\bensures (\w+)", code))
    return found | set(re.findall(r"\bpub (?:record |abbrev )?(?:pub )?(\w+)", specs))


def check_promises(page, failures):
    """The functions and the clauses that a list of promises names, by their names alone. In a crate's README they are the
    crate's own, or of a crate that their cell names."""
    own, count = page.parent.name if page.name == "README.md" else "*", 0
    for table in tables_of(without_blocks(page.read_text())):
        for row in table:
            if "Promise" not in row and "Law" not in row:
                continue
            for cell in (cell for column, cell in row.items() if column not in ("Promise", "Law")):
                known = set().union(*(names_in(crate) for crate in [own, *re.findall(r"\brace_\w+", cell)]))
                for named in re.findall(r"`([\w:]+)`", cell):
                    if not known.issuperset(named.split("::")):
                        failures.add(name(page), f"nothing has the name {named}")
                    count += 1
    return count


def has_lines(text, block):
    """Whether the lines of the block follow each other in the text, all of them indented further or not."""
    wanted, lines = textwrap.dedent(block).splitlines(), text.splitlines()
    return any(textwrap.dedent("\n".join(lines[at : at + len(wanted)])).splitlines() == wanted for at in range(len(lines)))


def check_quotations(page, failures):
    """Blocks marked `antt` with a file of definitions or of a proof, as race_model/specs/Race, or `rust` with one of code, as
    race_legal/src/locks, are in it as they are quoted."""
    found = re.findall(r"(?ms)^( *)```(antt|rust) (\S+)$\n(.*?)^\1```$", page.read_text())
    for _, language, file, block in found:
        here = ROOT / "crates" / (file + (".antt" if language == "antt" else ".rt"))
        if not here.exists() or not has_lines(here.read_text(), block):
            failures.add(name(page), f"{file} isn't quoted as it is there:\n{block}")
    return len(found)


def check_words(page, failures):
    """Phrases of PLAINER in the text of a page; what is code may have them."""
    hidden = re.sub(r"(?ms)^ *```.*?^ *```$|`[^`\n]+`", lambda code: re.sub(r"[^\n]", " ", code[0]), page.read_text())
    for phrase, plainer in PLAINER:
        for found in re.finditer(rf"(?i)\b(?:{phrase})\b", hidden):
            line = hidden.count("\n", 0, found.start()) + 1
            failures.add(f"{name(page)}:{line}", f'say "{found[0]}" in plainer words: {plainer}')
    return 1


def check_all(program, with_recorder):
    """With no program what needs none."""
    failures = Failures()
    counts = dict(commands=0, rows=0, links=0, paths=0, promises=0, quotations=0, pages=0)
    counts["wrong bodies"] = check_wrong_bodies(failures)
    with tempfile.TemporaryDirectory() as temporary:
        folder = pathlib.Path(temporary) if program else None
        if folder:
            make_copy(folder, program)
        for page in pages():
            counts["links"] += check_links(page, failures)
            counts["paths"] += check_paths(page, failures)
            counts["rows"] += check_tables(page, folder, failures)
            counts["quotations"] += check_quotations(page, failures)
            counts["pages"] += check_words(page, failures)
            if name(page) == "docs/PROVED.md" or page.parent.parent == ROOT / "crates":
                counts["promises"] += check_promises(page, failures)
            if folder and name(page) not in FOLLOWED_ELSEWHERE:
                counts["commands"] += check_blocks(page, folder, with_recorder, failures)
    print("checked: " + ", ".join(f"{count} {what}" for what, count in counts.items()))
    print(f"{sum(counts.values()) - failures.count} passed, {failures.count} failed")
    return failures.count


def main():
    words = [word for word in sys.argv[1:] if word != "--recorder"]
    program = shutil.which(words[0]) if len(words) == 1 else None
    if program is None and words != ["-"]:
        print(__doc__.split("\n\n")[1] + "\n\nPROGRAM can't be run" * bool(words), file=sys.stderr)
        return 3
    program = program and pathlib.Path(program).resolve()
    return 1 if check_all(program, "--recorder" in sys.argv) else 0


if __name__ == "__main__":
    sys.exit(main())
