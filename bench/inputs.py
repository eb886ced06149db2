#!/usr/bin/env python3
"""Writes the files that the benchmarks read into a folder: inputs.py FOLDER"""
import os
import random
import sys

SIZE = 16_777_216
HEADER = b"HDRPB000000123PUBLISHER A" + b" " * 34 + b"01.102024050112000020240501\r\n"


def works():
    """Ordinary works, each with eight writers, as many as fit."""
    title = b"SONG ONE" + b" " * 54 + b"W1" + b" " * 12 + b"T0345246801" + b"02010203" + b" " * 80
    name = b"000000001DOE" + b" " * 73 + b"CA" + b" " * 23 + b"01250   01250   01250\r\n"
    lines, size, works = [HEADER, b"GRHNWR0000102.200000000001\r\n"], 0, 0
    size = sum(map(len, lines)) + 52
    while True:
        work = [b"NWR%08d00000000" % works + title + b"\r\n"]
        work += [b"SWR%08d%08d" % (works, detail) + name for detail in range(1, 9)]
        length = sum(map(len, work))
        if size + length > SIZE:
            break
        lines += work
        size += length
        works += 1
    lines.append(b"GRT00001%08d%08d\r\n" % (works, 9 * works + 2))
    lines.append(b"TRL00001%08d%08d\r\n" % (works, 9 * works + 4))
    return b"".join(lines)


def empty_groups():
    """The most groups that a file can have, each without a transaction."""
    lines = [HEADER]
    for group in range(1, 100_000):
        lines.append(b"GRHNWR%05d\r\nGRT%05d0000000000000002\r\n" % (group, group))
    lines.append(b"TRL999990000000000200000\r\n")
    return b"".join(lines)


def one_work(details):
    """A file of one work with these details, each without its prefix and its line end."""
    lines = [HEADER, b"GRHNWR00001\r\n", b"NWR0000000000000000SONG ONE" + b" " * 54 + b"W1\r\n"]
    lines += [b"%s00000000%08d%s\r\n" % (kind, place, rest) for place, (kind, rest) in enumerate(details, 1)]
    lines.append(b"GRT0000100000001%08d\r\n" % (len(details) + 3))
    lines.append(b"TRL0000100000001%08d\r\n" % (len(details) + 5))
    return b"".join(lines)


def shuffled(size, seed):
    """The numbers below a size, each once, in an order that a seed gives."""
    numbers = list(range(size))
    random.Random(seed).shuffle(numbers)
    return numbers


def crowded():
    """One work of 300,000 records without a fault, of 55 bytes or so: as many publishers as links to them, in another
    order each, and territories of 10,000 codes."""
    third = 100_000
    details = [(b"SPU", b"01%09dPUBLISHER NO. %09d " % (number + 1, number + 1)) for number in shuffled(third, 1)]
    details.append((b"SWR", b"999999999"))
    details += [(b"PWR", b"%09dPUBLISHER NO. %09d   " % (number + 1, number + 1)) for number in shuffled(third, 2)]
    details += [(b"SWT", b"999999999010000100001000I%04d 001" % (number % 10_000)) for number in shuffled(third - 2, 3)]
    return one_work(details)


def faulty():
    """One work of 300,000 records, each with a fault of its own: publishers and writers without a party."""
    return one_work([(b"SPU" if place < 150_000 else b"SWR", b"") for place in range(299_999)])


folder = sys.argv[1]
inputs = [
    ("works", works()),
    ("empty-groups", empty_groups()),
    ("line-ends", b"\n" * SIZE),
    ("crowded", crowded()),
    ("faulty", faulty()),
]
for name, text in inputs:
    with open(os.path.join(folder, name), "wb") as file:
        file.write(text)
