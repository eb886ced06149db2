#!/usr/bin/env python3
"""Gives a program files of real size: large.py PROGRAM

Each file is made by a function, and what must become of it is worked out here from the rules of the profile: what is
printed, the status, each byte of the acknowledgement and of the register. Prints the time and the greatest memory of each
run, and fails at the first answer that is another one."""
import collections
import os
import sys
import tempfile

sys.path.append(os.path.join(os.path.dirname(os.path.abspath(__file__)), "..", "bench"))

from expected import Decided, acknowledgement, entry, register
from measured import measured

MAX_BYTES = 16_777_216
STAMP = ["--society", "007", "--name", "MY SOCIETY", "--date", "20240601", "--time", "090000"]
CREATED = b"20240501120000"

# A file: its bytes, and its transactions as submitted, or the line of its first fault; and why it is not read, if it is not.
File = collections.namedtuple("File", "name text works refused stopped", defaults=(None, None))
# A transaction: its group, sequence, title, number, control and faults.
Work = collections.namedtuple("Work", "group sequence title number control faults")


def header(submitter):
    return b"HDR%-11s%-45s01.10%s20240501\n" % (submitter, b"PUBLISHER", CREATED)


def trailers(transactions, records):
    """The trailers of a file of one group, with so many records in transactions."""
    return b"GRT00001%08d%08d\nTRL00001%08d%08d\n" % (transactions, records + 2, transactions, records + 4)


def works(name, submitter, count, shares, end=b""):
    """So many works of two records each. Each seventh has the number of an earlier one, and each eleventh no title."""
    lines, made = [header(submitter), b"GRHNWR00001\n"], []
    for place in range(count):
        title = b"" if place % 11 == 10 else b"SONG %07d" % place
        number = b"W%07d" % (place - 3 if place % 7 == 6 else place)
        lines.append(b"NWR%08d00000000%-60s  %s\n" % (place, title, number))
        lines.append(b"SWR%08d00000001000000001" % place + (b"%101s10000" % b"" if shares else b"") + b"\n")
        faults = [] if title else [(0, 2, b"NWR")]
        made.append(Work(1, place, title, number, [10000 if shares else 0, 0, 0], faults))
    lines.append(trailers(count, 2 * count))
    return File(name, b"".join(lines) + end, made)


def filled(name, submitter, size):
    """Works, as many as fit, and blanks after the last record up to that size."""
    count = (size - 200) // 119
    text = works(name, submitter, count, False).text
    assert 0 <= size - len(text) < 4096
    return works(name, submitter, count, False, b" " * (size - len(text)))


def crowded(name, submitter, records):
    """One work of so many records: of three writers in turn one has no party, one a share that is not valid, one no
    fault."""
    lines, faults = [header(submitter), b"GRHNWR00001\n", b"NWR0000000000000000%-60s  W1\n" % b"SONG"], []
    for place in range(1, records):
        if place % 3 == 0:
            lines.append(b"SWR00000000%08d\n" % place)
            faults.append((place, 7, b"SWR"))
        elif place % 3 == 1:
            lines.append(b"OWR00000000%08d%110s10001\n" % (place, b""))
            faults.append((place, 6, b"OWR"))
        else:
            lines.append(b"SWR00000000%08d000000001\n" % place)
    lines.append(trailers(1, records))
    return File(name, b"".join(lines), [Work(1, 0, b"SONG", b"W1", [0, 0, 0], faults)])


def groups(name, submitter, more):
    """99,999 groups without a transaction, the most that five digits can name, and perhaps a group more."""
    lines = [header(submitter)]
    lines += [b"GRHNWR%05d\nGRT%05d0000000000000002\n" % (group, group) for group in range(1, 100_000)]
    if more:
        lines.append(b"GRHNWR00000\nGRT000000000000000000002\n")
    lines.append(b"TRL999990000000000200000\n")
    # The first line of the group more is the 200,000th, and its ID is not one more than the groups before it.
    return File(name, b"".join(lines), [], b"refused F7 at line 200000" if more else None)


def decide(submitter, made, rows, works_before):
    """The decisions on the transactions of a file, as section 7 of the profile has them for NWR without an ISWC."""
    given, all_decided = works_before, []
    for work in made:
        key = (submitter, work.number)
        if work.faults:
            status, number, version = b"RJ", 0, 0
        elif key in rows:
            status, number, version = b"DU", rows[key], 0
        else:
            given += 1
            rows[key] = given
            status, number, version = b"AS", given, 1
        all_decided.append(
            Decided(submitter, work.group, work.sequence, b"NWR", work.title, work.number, b"", work.control, status, number, version, work.faults)
        )
    return all_decided, given


def check_text(file):
    """What `check` prints of a well-formed file."""
    lines = []
    for work in file.works:
        faults = b"".join(b" %d:J%d" % (record, number) for record, number, _ in work.faults)
        lines.append(b"%05d %08d NWR %s\n" % (work.group, work.sequence, b"rejected" + faults if faults else b"ok"))
    lines.append(b"%d transactions, %d with faults\n" % (len(file.works), sum(1 for work in file.works if work.faults)))
    return b"".join(lines)


class Folder:
    """Where a program runs, and what its runs take."""

    def __init__(self, program, path):
        self.program, self.path = program, path

    def keep(self, name, text):
        with open(os.path.join(self.path, name), "wb") as file:
            file.write(text)

    def holds(self, name, wanted):
        """Whether a file holds these bytes, or is absent where `None` is wanted."""
        path = os.path.join(self.path, name)
        if wanted is None:
            return not os.path.exists(path)
        with open(path, "rb") as file:
            return file.read() == wanted

    def run(self, what, words, status, printed, complained=b"", given=None):
        run = measured([self.program, *words], self.path, given or b"")
        got = (run.status, run.printed, run.complained)
        wanted = (status, printed, complained)
        if got != wanted:
            shown = [[part if isinstance(part, int) else part[:300] for part in answer] for answer in (got, wanted)]
            sys.exit("%s: %r, where it must be %r" % (what, *shown))
        print("%-44s %9.3f %9.1f" % (what, run.seconds, run.memory / 1e6), flush=True)

    def want(self, name, wanted, what):
        if not self.holds(name, wanted):
            sys.exit(f"{what}: {name} is not what it must be")


def outcome(file):
    """What becomes of a file in a run, and the status."""
    if file.stopped:
        return b"stopped after 0: " + file.stopped, 1
    if file.refused:
        return file.refused, 1
    return b"acknowledged %d" % len(file.works), 0


def try_file(folder, file, submitter):
    """`check`, `run --to`, `audit`, and `run --from` of another small file on that register."""
    folder.keep(file.name, file.text)
    told, status = outcome(file)
    size = "%s, %d bytes" % (file.name, len(file.text))
    if file.stopped:
        folder.run(f"check {size}", ["check", file.name], 1, b"", b"stopped: " + file.stopped + b"\n")
        folder.run(f"< {file.name}", [], 1, b"", b"-: " + told + b"\n", file.text)
    elif file.refused:
        folder.run(f"check {size}", ["check", file.name], 1, told + b"\n")
        folder.run(f"< {file.name}", [], 1, b"", b"-: " + told + b"\n", file.text)
    else:
        clean = not any(work.faults for work in file.works)
        folder.run(f"check {size}", ["check", file.name], 0 if clean else 1, check_text(file))
    rows = {}
    made, given = decide(submitter, file.works, rows, 0)
    answer = acknowledgement(7, b"MY SOCIETY", b"20240601", b"090000", CREATED, made)
    kept = [entry(each) for each in made]
    folder.run(f"run --to, {file.name}", ["run", *STAMP, "--to", "one.register", file.name], status, file.name.encode() + b": " + told + b"\n")
    folder.want(file.name + ".ack", None if status else answer, f"run {file.name}")
    folder.want("one.register", register(kept), f"run --to, {file.name}")
    folder.run(f"audit, {len(kept)} entries, {len(register(kept))} bytes", ["audit", "one.register"], 0, b"%d entries\n" % len(kept))
    # W0000000 is a work of the files of works; W9999999 is of none.
    small = [Work(1, 0, b"SONG 0", b"W0000000", [0, 0, 0], []), Work(1, 1, b"SONG 1", b"W9999999", [0, 0, 0], [])]
    lines = [header(submitter), b"GRHNWR00001\n"]
    for work in small:
        lines.append(b"NWR%08d00000000%-60s  %s\nSWR%08d00000001000000001\n" % (work.sequence, work.title, work.number, work.sequence))
    folder.keep("small", b"".join(lines) + trailers(2, 4))
    more, _ = decide(submitter, small, rows, given)
    words = ["run", *STAMP, "--from", "one.register", "--to", "two.register", "small"]
    folder.run(f"run --from the register of {file.name}", words, 0, b"small: acknowledged 2\n")
    folder.want("small.ack", acknowledgement(7, b"MY SOCIETY", b"20240601", b"090000", CREATED, more), "run --from")
    folder.want("two.register", register(kept + [entry(each) for each in more]), "run --from --to")


def main(program):
    submitter = b"PB000000123"
    limit = filled("at-the-limit", submitter, MAX_BYTES)
    files = [
        works("works", submitter, 70_000, True),
        crowded("one-work", submitter, 30_000),
        limit,
        File("a-byte-more", limit.text + b" ", [], None, b"too long"),
        groups("groups", submitter, False),
        groups("a-group-more", submitter, True),
    ]
    print("%-44s %9s %9s" % ("", "seconds", "MB"))
    for file in files:
        with tempfile.TemporaryDirectory() as path:
            try_file(Folder(os.path.abspath(program), path), file, submitter)


main(*sys.argv[1:])
