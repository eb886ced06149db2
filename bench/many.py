#!/usr/bin/env python3
"""Writes files of many submitters into a folder: many.py FOLDER FILES WORKS [shared]

FILES files of WORKS transactions each, one submitter a file. With the word `shared` the n-th work of every file has
the n-th ISWC and a part of its shares, each third file is of revisions, and each tenth transaction repeats the work
number of the one before it: so works have many claims, and there are duplicates and conflicts. Without it each
transaction is a work of its own."""
import os
import sys


def check_digit(number):
    """The check digit of ISO 15707 for the nine digits of an ISWC."""
    digits = [int(digit) for digit in "%09d" % number]
    return -(1 + sum(place * digit for place, digit in enumerate(digits, 1))) % 10


def writer(kind, place, record, party, share):
    shares = b"%05d   %05d   %05d" % (share, share, share)
    return b"%s%08d%08d%09dDOE" % (kind, place, record, party) + b" " * 73 + b"CA" + b" " * 23 + shares + b"\r\n"


def submission(file, works, shared):
    kind = b"REV" if shared and file % 3 == 0 else b"NWR"
    lines = [b"HDRPB%09dPUBLISHER A" % file + b" " * 34 + b"01.102024050112000020240501\r\n"]
    lines.append(b"GRH%s0000102.200000000001\r\n" % kind)
    share = (100, 400, 1_600)[file % 3] if shared else 10_000
    for place in range(works):
        own = place - 1 if shared and place % 10 == 9 else place
        number = place + 1 if shared else file * works + place + 1
        iswc = b"T%09d%d" % (number, check_digit(number))
        head = b"SONG %-55d  W%-13d%s" % (number, own, iswc)
        lines.append(b"%s%08d00000000" % (kind, place) + head + b"\r\n")
        lines.append(writer(b"SWR", place, 1, 1, share))
        if shared:
            lines.append(writer(b"OWR", place, 2, 2, 10_000 - share))
    records = len(lines)
    lines.append(b"GRT00001%08d%08d\r\n" % (works, records))
    lines.append(b"TRL00001%08d%08d\r\n" % (works, records + 2))
    return b"".join(lines)


def main(folder, files, works, *shared):
    for file in range(1, int(files) + 1):
        with open(os.path.join(folder, f"{file:02d}.v22"), "wb") as out:
            out.write(submission(file, int(works), shared == ("shared",)))


if __name__ == "__main__":
    main(*sys.argv[1:])
