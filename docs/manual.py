#!/usr/bin/env python3
"""Prints the manual page docs/purvilgo.1, made from what the program prints as help.

    docs/manual.py [--program PROGRAM] > docs/purvilgo.1

PROGRAM is the built program; without the word it is crates/purvilgo/out/purvilgo. `docs/pages.py` compares the page that is
kept with what this prints.
"""
import argparse
import os
import re
import subprocess
import sys

TOP = os.path.dirname(os.path.dirname(os.path.abspath(__file__)))

STATUSES = [
    ("0", "all that was asked for is done and reported: each file acknowledged and in place, no fault found, all of it printed"),
    ("1", "else: a file is refused or stopped, a fault is found, memory is refused, or a read or a write failed"),
    ("2", "the arguments are not taken, and nothing was read; or help is asked for"),
]

FILES = [
    ("FILE.ack", "the acknowledgement of FILE"),
    ("FILE.ack.new",
     "its draft. It takes its name when it is whole and the register is kept; one that stays is told of on standard error or "
     "in an outcome line"),
    ("REGISTER.new", "the draft of the register of --to"),
    ("REGISTER.lock", "an empty file, locked by the run that leaves REGISTER. It stays when the run has ended"),
]


def help_of(program, *words):
    """What the program prints of itself, or of a command."""
    ran = subprocess.run([program, "help", *words], stdout=subprocess.PIPE, stderr=subprocess.STDOUT, check=False)
    return ran.stdout.decode()


def escaped(text):
    """A text as a manual page spells it."""
    text = text.replace("\\", "\\e").replace("-", "\\-").replace("'", "\\(aq")
    return re.sub(r"^\.", r"\\&.", text, flags=re.M)


def parts_of(helped):
    """What it does, its usage, its commands, its arguments, its options, and the paragraphs behind them."""
    about, usage, lists, rest, at = "", "", {}, [], None
    for paragraph in helped.strip("\n").split("\n\n"):
        lines = paragraph.split("\n")
        head = lines[0]
        if not about:
            about = paragraph
        elif head.startswith("Usage: "):
            usage = head.removeprefix("Usage: ")
        elif re.fullmatch(r"[A-Z]\w+:", head) and len(lines) > 1 and lines[1].startswith("  ") and head != "Example:":
            at = head.rstrip(":")
            lists[at] = items_of(lines[1:])
        elif at and head.startswith("  "):
            lists[at] += items_of(lines)
        else:
            at = None
            rest.append(paragraph)
    return about, usage, lists, rest


def items_of(lines):
    """Terms with what is told of each, either on one line or on the next."""
    items = []
    for line in lines:
        if line.startswith("          ") and items:
            items[-1] = (items[-1][0], (items[-1][1] + " " + line.strip()).strip())
        else:
            term, _, told = line.strip().partition("  ")
            items.append((term, told.strip()))
    return items


def listed(items):
    """A list of terms."""
    return "".join(f".TP\n.B {escaped(term)}\n{escaped(told)}\n" for term, told in items)


def paragraphs(texts):
    """Paragraphs; an example stands as it is."""
    made = ""
    for text in texts:
        head, _, more = text.partition("\n")
        if head == "Example:":
            made += f".PP\n{head}\n.PP\n.nf\n{escaped(more)}\n.fi\n"
        else:
            made += "".join(f".PP\n{escaped(one)}\n" for one in re.split(r"\n(?=[A-Z]\w+: )", text))
    return made


def main():
    parser = argparse.ArgumentParser(description=__doc__, formatter_class=argparse.RawDescriptionHelpFormatter)
    parser.add_argument("--program", default=os.path.join(TOP, "crates/purvilgo/out/purvilgo"))
    program = parser.parse_args().program
    if not os.access(program, os.X_OK):
        print(f"no program {program}: README.md says how to build it", file=sys.stderr)
        return 2
    about, usage, lists, rest = parts_of(help_of(program))
    commands = [(name, parts_of(help_of(program, name))) for name, _ in lists["Commands"] if name != "help"]
    out = '.\\" Made by docs/manual.py from what `purvilgo help` prints.\n.TH PURVILGO 1\n'
    out += ".SH NAME\npurvilgo \\- a registry of musical works\n.SH SYNOPSIS\n.nf\n"
    for line in [usage, *(parts[1] for _, parts in commands), "purvilgo help [COMMAND]"]:
        out += escaped(line) + "\n"
    out += f".fi\n.SH DESCRIPTION\n.PP\n{escaped(about)}\n"
    for name in lists:
        out += f".PP\n{name}:\n{listed(lists[name])}"
    out += paragraphs(rest)
    for name, (told, _, its, more) in commands:
        out += f".SH {name.upper()}\n.PP\n{escaped(told)}\n"
        for heading in its:
            out += f".PP\n{heading}:\n{listed(its[heading])}"
        out += paragraphs(more)
    out += ".SH EXIT STATUS\n" + listed(STATUSES) + ".SH FILES\n" + listed(FILES)
    out += ".SH SEE ALSO\n.PP\nThe guides and the profile, in the folder docs of the repository: docs/guide/running.md,\n"
    out += "docs/guide/checking.md, docs/guide/auditing.md, docs/PROFILE.md.\n"
    print(out, end="")
    return 0


if __name__ == "__main__":
    sys.exit(main())
