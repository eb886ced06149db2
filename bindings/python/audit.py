#!/usr/bin/env python3
"""Audits a register: prints what `purvilgo audit` prints of it.

    audit.py REGISTER

The status is 0 if it is the register of one registry, else 1.
"""

import pathlib
import sys

import purvilgo


def main(register: str) -> int:
    try:
        print(purvilgo.audit(pathlib.Path(register).read_bytes()), "entries")
    except purvilgo.RegisterError as fault:
        print(fault)
        return 1
    return 0


if __name__ == "__main__":
    sys.exit(main(sys.argv[1]))
