#!/usr/bin/env python3
"""Makes the completions of shells, and the manual page, from what the program's own help says.

    docs/make_pages.py PROGRAM              writes share/completions/ and share/man/
    docs/make_pages.py --compare PROGRAM    says which file of them isn't what the help says, and fails then

PROGRAM is the built gorace. Its commands, options and texts are read from `PROGRAM --help` and `PROGRAM COMMAND --help`."""

import argparse
import dataclasses
import difflib
import pathlib
import re
import subprocess
import sys
import textwrap

ROOT = pathlib.Path(__file__).resolve().parent.parent
SHARE = ROOT / "share"
NAME = "gorace"
MADE = "Made by docs/make_pages.py from what gorace --help says."
ROWS = {
    "Commands": re.compile(r"  (?P<name>[\w-]+) +(?P<text>\S.*)"),
    "Arguments": re.compile(r"  (?P<name>[<\[]\w+[>\]]) +(?P<text>\S.*)"),
    "Options": re.compile(r" +(?:(?P<short>-\w), )?(?P<name>--[\w-]+)(?: <(?P<value>\w+)>)? +(?P<text>\S.*)"),
}


@dataclasses.dataclass
class Help:
    """What help says of the program, or of a command."""

    name: str
    about: str
    usage: str
    rows: dict
    after: str

    @property
    def options(self):
        return self.rows["Options"]

    def option_words(self):
        return [word for row in self.options for word in (row.get("short"), row["name"]) if word]


def said_by(program, *words):
    ran = subprocess.run([program, *words], stdin=subprocess.DEVNULL, capture_output=True, text=True, timeout=60)
    if ran.returncode:
        sys.exit(f"make_pages.py: {' '.join([NAME, *words])} ends with {ran.returncode}: {ran.stderr.strip()}")
    return ran.stdout


def rows_of(kind, lines):
    """The rows of a list of commands, arguments or options."""
    found = [ROWS[kind].fullmatch(line) for line in lines]
    if not all(found):
        sys.exit(f"make_pages.py: this line under {kind} isn't understood: {lines[found.index(None)]}")
    return [it.groupdict() for it in found]


def help_of(program, *words):
    """Reads a help: what it is about, its usage, lists under a head each, and what comes after them."""
    about, usage, *parts = said_by(program, *words, "--help").rstrip("\n").split("\n\n")
    rows = {kind: [] for kind in ROWS}
    while parts and parts[0].split(":\n")[0] in rows:
        kind, *lines = parts.pop(0).split("\n")
        rows[kind.rstrip(":")] = rows_of(kind.rstrip(":"), lines)
    return Help(" ".join([NAME, *words]), about, usage.removeprefix("Usage: "), rows, "\n\n".join(parts))


# The manual page


def plain(text):
    """Text as it stands, for troff."""
    return re.sub(r"^(?=\.)", r"\\&", text.replace("\\", r"\e").replace("'", r"\(aq").replace("-", r"\-"), flags=re.M)


def prose(text):
    """A paragraph: its lines may be filled, and the commands that it quotes are bold."""
    text = re.sub(r"(?<=\w)-(?=\w)", "\0", " ".join(text.split()))
    text = re.sub(r"'((?:gorace|gorec) [^']*)'", "\1B\\1\1R", text)
    text = "\n".join(textwrap.wrap(text, 76, break_long_words=False, break_on_hyphens=False))
    return re.sub("\1([BR])", r"\\f\1", plain(text)).replace("\0", "-")


def list_entry(head, text):
    return f".TP\n{head}\n{prose(text)}\n"


def option_head(row):
    words = ", ".join(f"\\fB{plain(word)}\\fR" for word in (row["short"], row["name"]) if word)
    return words + (f" \\fI{row['value']}\\fR" if row["value"] else "")


def paragraph(block):
    """A block of help: a list of statuses, an example, which is indented, or prose."""
    head, *lines = block.split("\n")
    statuses = [re.fullmatch(r"  (\d+) +(.*)", line) for line in lines]
    if lines and all(statuses):
        entries = "".join(list_entry(f".B {it[1]}", it[2]) for it in statuses)
        return f".PP\n{prose(head)}\n.PD 0\n{entries}.PD\n"
    if all(line.startswith(("  ", "\0")) for line in block.split("\n")):
        shown = "\n".join(plain(line[2:]) for line in block.split("\n"))
        return f".PP\n.RS 4\n.EX\n{shown}\n.EE\n.RE\n"
    return f".PP\n{prose(block)}\n"


def after_of(a_help):
    """What comes after the lists of a help. Examples that follow each other are one."""
    text = re.sub(r"(?m)^(  .*)\n\n(?=  )", r"\1\n\0\n", a_help.after)
    return "".join(paragraph(block).replace("\0", "") for block in text.split("\n\n") if block)


def synopsis(usage):
    words = re.fullmatch(r"((?:[a-z-]+ ?)+)(.*)", usage)
    return f"\\fB{plain(words[1].rstrip())}\\fR {plain(words[2])}".rstrip()


def section(command):
    """What the page says of a command."""
    text = f".SS {command.name}\n{prose(command.about)}.\n.PP\n.RS 4\n{synopsis(command.usage)}\n.RE\n"
    for row in command.rows["Arguments"]:
        text += list_entry(f".I {row['name'].strip('<>[]')}", row["text"])
    text += "".join(list_entry(option_head(row), row["text"]) for row in command.options)
    return text + after_of(command)


def manual(program, whole, commands):
    version = " ".join(said_by(program, "--version").split()[:2])
    usages = "\n.br\n".join(synopsis(it.usage) for it in commands)
    options = "".join(list_entry(option_head(row), row["text"]) for row in whole.options)
    return (
        f'.\\" {MADE}\n.TH {NAME.upper()} 1 "" "{version}" "User Commands"\n'
        f".SH NAME\n{NAME} \\- {prose(whole.about[0].lower() + whole.about[1:])}\n"
        f".SH SYNOPSIS\n{usages}\n.SH DESCRIPTION\n{prose(whole.about)}.\n{after_of(whole)}"
        f".SH OPTIONS\n{options}.SH COMMANDS\n" + "".join(section(it) for it in commands)
    )


# Completions


def bash(whole, commands):
    names = " ".join(row["name"] for row in whole.rows["Commands"])
    alone = " ".join(whole.option_words())
    offers = "".join(f"        {it.name.split()[1]}) offers='{' '.join(it.option_words())}' ;;\n" for it in commands)
    values = sorted({row["name"] for it in commands for row in it.options if row["value"]})
    return f"""# Completions of {NAME} for bash. {MADE}

_{NAME}() {{
    local word=${{COMP_WORDS[COMP_CWORD]}} before=${{COMP_WORDS[COMP_CWORD - 1]}} command='' offers='' at
    COMPREPLY=()
    case $before in
        # After < and > comes a file.
        *[\\<\\>]) compopt -o default 2>/dev/null; return ;;
        # After these comes a number, or several.
        {" | ".join(values)} | =) return ;;
    esac
    for ((at = 1; at < COMP_CWORD; at++)); do
        if [[ ${{COMP_WORDS[at]}} != -* ]]; then
            command=${{COMP_WORDS[at]}}
            break
        fi
    done
    case $command in
        '') [[ $word == -* ]] && offers='{alone}' || offers='{names}' ;;
        help) offers='{names}' ;;
{offers}    esac
    COMPREPLY=($(compgen -W "$offers" -- "$word"))
}}

complete -F _{NAME} {NAME}
"""


def quoted(text):
    return "'" + text.replace("'", "'\\''") + "'"


def zsh_text(text):
    return re.sub(r"([\[\]:\\])", r"\\\1", text)


def zsh_options(a_help):
    for row in a_help.options:
        value = f":{row['value']}: " if row["value"] else ""
        both = f"({row['short']} {row['name']})" if row["short"] else ""
        for word in filter(None, (row["short"], row["name"])):
            yield quoted(f"{both}{word}[{zsh_text(row['text'])}]{value}")


def zsh_arguments(a_help):
    for row in a_help.rows["Arguments"]:
        yield quoted(("::" if row["name"].startswith("[") else ":") + zsh_text(row["text"]) + ": ")


def zsh(whole, commands):
    named = "".join(f"        {quoted(row['name'] + ':' + row['text'])}\n" for row in whole.rows["Commands"])
    cases = ""
    for it in commands:
        words = [*zsh_options(it), *zsh_arguments(it)]
        cases += f"        {it.name.split()[1]})\n            _arguments " + " \\\n                ".join(words) + "\n            ;;\n"
    return f"""#compdef {NAME}
# Completions of {NAME} for zsh. {MADE}

_{NAME}() {{
    local context state state_descr line
    typeset -A opt_args
    local -a commands=(
{named}    )
    _arguments -C {" ".join(zsh_options(whole))} \\
        '1: :->command' '*:: :->words'
    case $state in
        command) _describe command commands ;;
        words) _{NAME}_words $line[1] ;;
    esac
}}

_{NAME}_words() {{
    case $1 in
        help) _describe command commands ;;
{cases}    esac
}}

_{NAME} "$@"
"""


def fish_option(row, condition):
    words = f" -s {row['short'][1:]}" if row["short"] else ""
    words += f" -l {row['name'][2:]}" + (" -x" if row["value"] else "")
    return f"complete -c {NAME} -n '{condition}'{words} -d {fish_text(row['text'])}\n"


def fish_text(text):
    return "'" + text.replace("\\", "\\\\").replace("'", "\\'") + "'"


def fish(whole, commands):
    text = f"""# Completions of {NAME} for fish. {MADE}

# Whether the command is this one, or by '' whether there is none yet.
function __{NAME}_is
    set -l words (commandline -opc) ''
    test "$words[2]" = "$argv[1]"
end

complete -c {NAME} -f
"""
    for row in whole.rows["Commands"]:
        text += f"complete -c {NAME} -n '__{NAME}_is \"\"; or __{NAME}_is help' -a {row['name']} -d {fish_text(row['text'])}\n"
    text += "".join(fish_option(row, f'__{NAME}_is ""') for row in whole.options)
    return text + "".join(fish_option(row, f"__{NAME}_is {it.name.split()[1]}") for it in commands for row in it.options)


def pages(program):
    """Each file of share/, by its path there."""
    whole = help_of(program)
    commands = [help_of(program, row["name"]) for row in whole.rows["Commands"] if row["name"] != "help"]
    return {
        f"completions/{NAME}.bash": bash(whole, commands),
        f"completions/_{NAME}": zsh(whole, commands),
        f"completions/{NAME}.fish": fish(whole, commands),
        f"man/{NAME}.1": manual(program, whole, commands),
    }


def compare(made):
    """Says which files differ, and returns how many."""
    wrong = 0
    for path, text in made.items():
        file = SHARE / path
        stands = file.read_text() if file.exists() else ""
        if stands != text:
            wrong += 1
            print(f"share/{path} isn't what the help says; docs/make_pages.py PROGRAM writes it anew:")
            lines = difflib.unified_diff(stands.splitlines(), text.splitlines(), "is", "would be", lineterm="", n=0)
            print("\n".join([*lines][:20]))
    return wrong


def main():
    parser = argparse.ArgumentParser(description=__doc__, formatter_class=argparse.RawDescriptionHelpFormatter)
    parser.add_argument("--compare", action="store_true")
    parser.add_argument("program", metavar="PROGRAM")
    given = parser.parse_args()
    made = pages(pathlib.Path(given.program).resolve())
    if given.compare:
        return 1 if compare(made) else 0
    for path, text in made.items():
        (SHARE / path).parent.mkdir(parents=True, exist_ok=True)
        (SHARE / path).write_text(text)
    return 0


if __name__ == "__main__":
    sys.exit(main())
