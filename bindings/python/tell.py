#!/usr/bin/env python3
"""Prints a text of the library, as the program's command of that name prints it.

    tell.py check FILE, or check-long FILE, or check-json FILE
    tell.py explain [RULE]
    tell.py claims REGISTER, or works, history or summary REGISTER
    tell.py verify REGISTER FILE..      each with its acknowledgement, FILE.ack
    tell.py version

The status is 0 if a file is clean, a register has no fault, and files are verified; 2 for words that are not taken and
files that cannot be read; else 1.
"""

import pathlib
import sys

import purvilgo

CHECKS = {
    "check": (purvilgo.check, "ascii"),
    "check-long": (purvilgo.check_long, "latin-1"),
    "check-json": (purvilgo.check_json, "utf-8"),
}
TABLES = {
    "claims": purvilgo.claims_csv,
    "works": purvilgo.works_csv,
    "history": purvilgo.history_csv,
    "summary": lambda register: purvilgo.summary(register).encode(),
}


def misfit(names: "list[str]", told: purvilgo.MisfitError) -> str:
    """What does not fit, with the name of its file, as `purvilgo verify` prints it."""
    name = names[told.file]
    return {
        purvilgo.Misfit.TOO_LONG: f"{name}: too long",
        purvilgo.Misfit.REFUSED: f"{name}: refused F{told.fault} at line {told.line}",
        purvilgo.Misfit.TRANSACTION: f"{name}: group {told.group}, transaction {told.transaction}: "
        f"not in the register as {name}.ack has it",
        purvilgo.Misfit.LINE: f"{name}.ack: line {told.line} is another in the register",
    }[told.kind]


def verify(register: bytes, names: "list[str]") -> int:
    pairs = [(pathlib.Path(name).read_bytes(), pathlib.Path(name + ".ack").read_bytes()) for name in names]
    try:
        print(purvilgo.verify(register, pairs), "transactions of", len(pairs), "files")
    except purvilgo.MisfitError as told:
        print(misfit(names, told))
        return 1
    return 0


def tell(call: str, words: "list[str]") -> int:
    if call == "version":
        print("purvilgo", purvilgo.__version__)
        return 0
    if call == "explain":
        print(purvilgo.explain(*words), end="")
        return 0
    given = pathlib.Path(words[0]).read_bytes()
    if call in CHECKS:
        check, encoding = CHECKS[call]
        told = check(given)
        sys.stdout.buffer.write(told.text.encode(encoding))
        return 0 if told.clean else 1
    try:
        if call == "verify":
            return verify(given, words[1:])
        sys.stdout.buffer.write(TABLES[call](given))
    except purvilgo.RegisterError as fault:
        print(fault)
        return 1
    return 0


def is_taken(call: str, words: "list[str]") -> bool:
    """Whether there is a call of this name, for this number of words."""
    if call == "version":
        return not words
    if call == "explain":
        return len(words) <= 1
    if call == "verify":
        return len(words) > 1
    return (call in CHECKS or call in TABLES) and len(words) == 1


def main(call: str = "", *words: str) -> int:
    if not is_taken(call, list(words)):
        print("tell: words that are not taken", file=sys.stderr)
        return 2
    try:
        return tell(call, list(words))
    except OSError as error:
        print(f"tell: {error.filename}: cannot be read", file=sys.stderr)
        return 2
    except ValueError as wrong:
        print(f"tell: {wrong}", file=sys.stderr)
        return 1


if __name__ == "__main__":
    sys.exit(main(*sys.argv[1:]))
