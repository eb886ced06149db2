#!/usr/bin/env python3
"""Lists the must-fail edits that show nothing of a contract: docs/edits.py [FILE]

    FILE   what `rt ci` or `rt must-fail` printed; else standard input

For each edit the gate prints whether the prover refused it, and the first reason. Listed, one a line with its reason, are:

- an edit that was refused for a name that is gone: a proof file names what the edit took away, so that the prover did not
  come to the contract. The gate says so of some. Of the others it is taken from the first reason, where that is an error
  in `proofs/`: a name is not in scope, what a proof cites was not admitted, or a record or a module has no such name. The
  prover may tell the last on two lines, of which the gate prints the first; so a reason that ends behind the name of a
  record or a module is one too. An edit that has other reasons, behind such a first one, is listed as well;
- an edit that was not refused;
- a bad edit, which did not come to the prover.

The last line counts them. An edit that is told of more than once counts as it was told last. The status is 1 where an
edit is listed, 0 where none is, and 2 where no edit is told of."""
import argparse
import collections
import re
import sys

# The gate's line of an edit, or of a file that lies where no edit may.
TOLD = re.compile(r"^rt: (?:must-fail )?(\S+?): (refused, as it must be|NOT REFUSED|BAD EDIT)(.*)$")
NOTED = "only because a proof file names what the edit took away"
NAMES = re.compile(r"^(\./)?proofs/.*(has no field|is not in scope|has no `|was not admitted)")
# The first of two lines, which the gate may have cut.
BROKEN = re.compile(r"^(\./)?proofs/\S+ error: `[^`]*`: (`[^`]*`: )?(record|module) `[^`]*(`( \(nearest: [^)]*\)?)?)?$")
KINDS = {"gone": "for a name that is gone", "passed": "not refused", "bad": "bad"}


def kind_of(word, rest):
    """What is wrong with an edit, if anything is, and the reason that the gate prints."""
    reason = rest.lstrip(": ")
    if word == "NOT REFUSED":
        return "passed", reason
    if word == "BAD EDIT":
        return "bad", reason
    if NOTED in rest:
        return "gone", rest.partition("): ")[2]
    return ("gone" if NAMES.match(reason) or BROKEN.match(reason) else None), reason


def edits_in(lines):
    """Each edit that the lines tell of, with what is wrong with it and why."""
    edits = {}
    for line in lines:
        told = TOLD.match(line.rstrip("\n"))
        if told:
            edits[told[1]] = kind_of(told[2], told[3])
    return edits


def main():
    parser = argparse.ArgumentParser(description=__doc__, formatter_class=argparse.RawDescriptionHelpFormatter)
    parser.add_argument("file", nargs="?", default="-", metavar="FILE")
    words = parser.parse_args()
    try:
        with open(0 if words.file == "-" else words.file, encoding="utf-8", errors="replace") as lines:
            edits = edits_in(lines)
    except OSError as error:
        print(f"{words.file}: {error.strerror}", file=sys.stderr)
        return 2
    if not edits:
        print("no edit is told of: this takes what `rt ci` or `rt must-fail` printed", file=sys.stderr)
        return 2
    counts = collections.Counter(kind for kind, _ in edits.values() if kind)
    for name, (kind, reason) in edits.items():
        if kind:
            print(f"{name}: {KINDS[kind]}: {reason}")
    others = "".join(f", {counts[kind]} {KINDS[kind]}" for kind in ("passed", "bad") if counts[kind])
    print(f"{len(edits)} edits, {counts['gone']} {KINDS['gone']}{others}")
    return 1 if counts else 0


sys.exit(main())
