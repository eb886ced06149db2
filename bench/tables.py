#!/usr/bin/env python3
"""Reads the tables of a large register back, and times them: tables.py PROGRAM FOLDER [FILES WORKS]

Has the program make a register of FILES files of WORKS transactions each (32 of 31,250, so a million entries), whose
titles need quotes here and there, some of which revise the one before or are rejected. Reads the tables of `claims`, `works` and `history`
with Python's csv module, and compares each row and each field with what this script reads from the register's columns.
Prints for each table its rows, seconds and greatest memory. The status is 1 where anything differs."""
import csv
import io
import os
import subprocess
import sys

from measured import measured

HERE = os.path.dirname(os.path.abspath(__file__))
WORDS = ["run", "--society", "007", "--name", "SOCIETY", "--date", "20240601", "--time", "090000", "--to", "register"]
HEADERS = {
    "claims": "submitter,number,work,version,title,iswc,performing,mechanical,synchronization",
    "works": "work,iswc,performing,mechanical,synchronization,claims",
    "history": "entry,submitter,kind,number,title,iswc,performing,mechanical,synchronization,status,work,version,faults",
}
RIGHTS = ((110, 122), (122, 134), (134, 146))


def spoil(path):
    """Gives titles of a file commas and quotes, has some transactions revise the one before, and gives some writers a share
    above the whole."""
    lines = open(path, "rb").read().split(b"\r\n")
    before = None
    for place, line in enumerate(lines):
        if line[:3] in (b"NWR", b"REV"):
            if before and place % 5 == 0:
                line = line[:81] + before[81:106]
            before = line
            lines[place] = line.replace(b"SONG ", b'S,"G ', 1) if place % 7 == 0 else line
        if line[:3] == b"SWR" and place % 53 == 0:
            lines[place] = line[:129] + b"10001" + line[134:]
    with open(path, "wb") as out:
        out.write(b"\r\n".join(lines))


class Entry:
    """An entry, by the columns of its line."""

    def __init__(self, index, line):
        assert line[:3] == "ENT" and int(line[3:11]) == index, (index, line)
        self.submitter, self.kind, self.title, self.number = line[11:22], line[22:25], line[25:85], line[85:99]
        self.iswc = line[99:110].strip()
        self.control = [int(line[start:end]) for start, end in RIGHTS]
        self.status, self.work, self.version = line[146:148], int(line[148:156]), int(line[156:164])
        count = int(line[164:173])
        faults = [line[at : at + 13] for at in range(173, 173 + 13 * count, 13)]
        self.faults = " ".join(f"{int(fault[:8])}:J{int(fault[8:10])}" for fault in faults)


def entries_of(path):
    lines = open(path, "rb").read().decode("latin-1").split("\n")
    assert lines[0] == "REG%08d" % (len(lines) - 2) and lines[-1] == "", lines[0]
    return [Entry(index, line) for index, line in enumerate(lines[1:-1], 1)]


def current(entries):
    """The last accepted entry of each submitter's number, in the order of the entries."""
    last = {(entry.submitter, entry.number): at for at, entry in enumerate(entries) if entry.status == "AS"}
    return [entries[at] for at in sorted(last.values())]


def claim_rows(entries):
    for e in current(entries):
        yield [e.submitter, e.number, str(e.work), str(e.version), e.title, e.iswc, *map(str, e.control)]


def work_rows(entries):
    accepted = [entry for entry in entries if entry.status == "AS"]
    iswcs = {entry.work: entry.iswc for entry in accepted if entry.iswc}
    control, claims = {}, {}
    for entry in current(entries):
        held = control.get(entry.work, [0, 0, 0])
        control[entry.work] = [one + more for one, more in zip(held, entry.control)]
        claims[entry.work] = claims.get(entry.work, 0) + 1
    for work in range(1, max((entry.work for entry in accepted), default=0) + 1):
        yield [str(work), iswcs.get(work, ""), *map(str, control.get(work, [0, 0, 0])), str(claims.get(work, 0))]


def history_rows(entries):
    for index, e in enumerate(entries, 1):
        work, version = str(e.work or ""), str(e.version or "")
        control = map(str, e.control)
        yield [str(index), e.submitter, e.kind, e.number, e.title, e.iswc, *control, e.status, work, version, e.faults]


def differences(name, told, wanted):
    """The number of rows that were told, and what differs first from those that are wanted."""
    rows = csv.reader(io.StringIO(told.decode("latin-1"), newline=""))
    wanted = iter(wanted)
    if next(rows, None) != HEADERS[name].split(","):
        return 0, f"{name}: another header"
    count = 0
    for count, row in enumerate(rows, 1):
        if row != next(wanted, None):
            return count, f"{name}: row {count} differs: {row}"
    if next(wanted, None) is not None:
        return count, f"{name}: ends after {count} rows"
    return count, None


def main(program, folder, files="32", works="31250"):
    program = os.path.abspath(program)
    subprocess.run([sys.executable, f"{HERE}/many.py", folder, files, works, "shared"], check=True)
    names = sorted(os.listdir(folder))
    for name in names:
        spoil(os.path.join(folder, name))
    run = measured([program, *WORDS, *names], folder)
    assert run.status == 0, (run.status, run.printed, run.complained)
    entries = entries_of(os.path.join(folder, "register"))
    statuses = [f"{status} {sum(entry.status == status for entry in entries)}" for status in ("AS", "DU", "CO", "RJ")]
    print("register of %d entries: %s" % (len(entries), ", ".join(statuses)))
    faults = []
    print("%-10s %9s %9s %9s" % ("", "rows", "seconds", "MB"))
    for name, wanted in (("claims", claim_rows), ("works", work_rows), ("history", history_rows)):
        run = measured([program, name, "register"], folder)
        count, fault = differences(name, run.printed, wanted(entries))
        if run.status != 0 or run.complained:
            fault = f"{name}: status {run.status}, {run.complained}"
        print("%-10s %9d %9.2f %9.1f" % (name, count, run.seconds, run.memory / 1e6), flush=True)
        faults += [fault] if fault else []
    print("\n".join(faults) if faults else "every row and field is that of the register")
    return 1 if faults else 0


sys.exit(main(*sys.argv[1:]))
