#!/usr/bin/env python3
"""Checks every file of a folder: its name, and what `purvilgo check` says of it.

    check_folder.py FOLDER

The status is 0 if all files are clean, else 1.
"""

import pathlib
import sys

import purvilgo


def main(folder: str) -> int:
    all_clean = True
    for path in sorted(pathlib.Path(folder).iterdir()):
        if path.name.startswith("."):
            continue
        told = purvilgo.check(path.read_bytes())
        print(f"{path.name}:\n{told.text}", end="")
        all_clean = all_clean and told.clean
    return 0 if all_clean else 1


if __name__ == "__main__":
    sys.exit(main(sys.argv[1]))
