#!/usr/bin/env python3
"""Times whole nights in order, in turn and at once: ordered.py PROGRAM FOLDER [--turns N] [--only CASE,..]
[--one-processor]

The files of each case are made in the folder, which should lie in memory. The program runs them once each way in a turn,
the ways in another order each turn; what the run before left is removed first. Eleven turns are made, or as many as
--turns says. With --one-processor the program runs in order and in turn alone, on one processor. Prints the median of
the seconds of each way, with the least and the greatest, and the greatest memory of its runs.

What is printed is compared with what must be. After each turn what the run in order left is compared with what the first
run in turn left: each acknowledgement and the register, byte for byte. Where one of them is another, the script says so
and ends with status 1."""
import argparse
import collections
import hashlib
import itertools
import os
import random
import shutil
import statistics
import sys

from many import check_digit
from measured import measured

WORDS = ["run", "--society", "007", "--name", "SOCIETY", "--date", "20240601", "--time", "090000"]
WAYS = {"in order": ["--in-order"], "in turn": ["--in-turn"], "at once": []}
MAX_BYTES = 16_777_216
FILES = 63
MANY = 99_999_999

# A form of work: the records after its header, and the submitter's part of the shares in hundredths of one per cent. The
# others have the rest.
Form = collections.namedtuple("Form", "records control")
SMALL = [Form("SWR", 10_000), Form("SWR OWR", 5_000), Form("SWR OWR", 2_500)]
MIXED = [
    Form("SWR SWT", 10_000),
    Form("SWR OWR", 5_000),
    Form("SWR SWT OWR", 2_500),
    Form("SPU SPT SWR PWR", 10_000),
    Form("SPU SPT SWR SWT PWR", 10_000),
    Form("SPU SPT SWR SWT PWR OWR", 5_000),
    Form("SPU SPT SPT SWR SWT PWR ALT", 10_000),
    Form("SPU SPT SWR SWT PWR OPU OWR PWR", 5_000),
    Form("SPU SPT SWR SWT PWR SWR SWT PWR PER", 10_000),
    Form("SPU SPT SPT SWR SWT SWT PWR OWR ALT XRF", 3_300),
    Form("SPU SPT SPU SPT SWR SWT PWR PWR OWR ALT PER", 5_000),
    Form("SPU SPT SPT SWR SWT PWR SWR SWT PWR OPU OWR PWR REC", 7_500),
    Form("SPU SPT SPU SPT SWR SWT PWR PWR SWR SWT PWR PWR REC", 10_000),
    Form("SPU SPT SPT SPU SPT SPT SWR SWT SWT PWR PWR OWR ALT ALT", 5_000),
    Form("SPU SPT SPU SPT SWR SWT PWR PWR SWR SWT PWR PWR OWR ALT XRF", 2_500),
    Form("SPU SPT SPT SWR SWT PWR SWR SWT PWR SWR SWT PWR OPU OWR PWR PER", 6_700),
    Form("SPU SPT SPU SPT SPU SPT SWR SWT PWR PWR PWR SWR SWT PWR PWR PWR ALT", 10_000),
    Form("SPU SPT SPT SPU SPT SPT SWR SWT SWT PWR PWR SWR SWT SWT PWR PWR OWR XRF", 5_000),
    Form("SPU SPT SPT SPU SPT SPT SWR SWT PWR PWR SWR SWT PWR PWR SWR SWT PWR PWR ALT", 10_000),
]
NAMES = [b"DOE", b"ROE", b"MUELLER", b"GARCIA MARTINEZ", b"OKONKWO", b"VAN DER BERG", b"SMITH"]
TITLES = [b"EVENING SONG", b"A LONG WAY FROM THE HARBOUR", b"WALTZ", b"WHAT THE RIVER SAID TO THE STONES IN MAY", b"NOCTURNE"]
TERRITORIES = [b"I2136", b"E0840", b"E0826"]
# A header behind its transaction sequence: title, number, ISWC.
HEAD = b"00000000%-60sEN%-14s%s2001020312345       POP000330U" + b" " * 58 + b"\r\n"

# A case: the forms of its works, the most works and bytes of each file, the kinds of its groups, and whether some works
# are rejected and some files refused.
Case = collections.namedtuple("Case", "forms limits kinds faulty")
# From 8,000 bytes to the most, each the same part larger than the one before, and four works as the least.
UNEVEN = [(4, MAX_BYTES)] + [(MANY, round(8_000 * (MAX_BYTES / 8_000) ** (place / 61))) for place in range(62)]
BOTH = [b"NWR", b"REV"]
CASES = {
    "large": Case(MIXED, [(MANY, MAX_BYTES)] * FILES, BOTH, False),
    "one": Case(MIXED, [(MANY, MAX_BYTES)], BOTH, False),
    "thin": Case(SMALL[:1], [(2_000, MAX_BYTES)] * FILES, [b"NWR"], True),
    "small": Case(SMALL, [(250, MAX_BYTES)] * FILES, BOTH, True),
    "mixed-night": Case(MIXED, [UNEVEN[file * 23 % FILES] for file in range(FILES)], BOTH, True),
    "megabyte": Case(MIXED, [(MANY, 1_000_000)] * FILES, BOTH, True),
}


def parts(whole, count):
    """A share in so many parts, as even as they can be."""
    return [whole // count + (place < whole % count) for place in range(count)]


def details(form, first):
    """The records of a form after its header, cut where the transaction sequence belongs. The parties are numbered on
    from the first."""
    records = form.records.split()
    own, writers = records.count("SPU"), records.count("SWR")
    others = records.count("OPU") + records.count("OWR")
    # Where there are publishers of the submitter, writers have half of the performing rights and nothing else.
    half = form.control // 2 if own else 0
    shares = {
        "SPU": zip(parts(half, own), parts(form.control, own), parts(form.control, own)) if own else None,
        "SWR": zip(parts(form.control - half, writers), *[parts(0 if own else form.control, writers)] * 2),
        "other": zip(*[parts(10_000 - form.control, others)] * 3) if others else None,
    }
    parties, publishers, last, text = itertools.count(first), [], {}, b""
    territories = links = 0
    for place, kind in enumerate(records, 1):
        if kind in ("SPU", "OPU", "SWR", "OWR"):
            last = {"party": next(parties), "shares": next(shares[kind] if kind in shares else shares["other"])}
            last["name"] = NAMES[last["party"] % len(NAMES)]
            territories = links = 0
        if kind == "OPU":
            publishers = []
        if kind in ("SPU", "OPU"):
            publishers.append(last)
            rest = b"%02d%09d%-45s E %9s%011d%14s052%05d044%05d   %05d" % (
                len(publishers), last["party"], last["name"] + b" MUSIC PUBLISHING", b"", last["party"] * 7, b"", *last["shares"])
        elif kind in ("SWR", "OWR"):
            rest = b"%09d%-45s%-30s CA%9s%011d052%05d044%05d   %05d" % (
                last["party"], last["name"], b"JANE", b"", last["party"] * 7, *last["shares"])
        elif kind in ("SPT", "SWT"):
            blanks = b" " * 6 if kind == "SPT" else b""
            rest = b"%09d%s%05d%05d%05d%s %03d" % (last["party"], blanks, *last["shares"], TERRITORIES[territories], territories + 1)
            territories += 1
        elif kind == "PWR":
            publisher = publishers[links]
            rest = b"%09d%-45s%28s%09d" % (publisher["party"], publisher["name"] + b" MUSIC PUBLISHING", b"", last["party"])
            links += 1
        elif kind == "ALT":
            rest = b"%-60sATEN" % b"ANOTHER TITLE OF THE SAME WORK"
        elif kind == "XRF":
            rest = b"052ID%-12dWY" % first
        elif kind == "PER":
            rest = b"%-45s%-54s" % (b"THE PERFORMERS", b"")
        else:
            rest = b"20010203%60s000330%5s%-60s%108s" % (b"", b"", b"FIRST ALBUM", b"")
        text += b"%s\0%08d%s\r\n" % (kind.encode(), place, rest)
    return text.split(b"\0")


def claim(file, place):
    """The number and the ISWC of a work. Of ten works in a row three have no ISWC, one has that of a work of two files
    beside this one, and one that of a work of two files that are 21 and 42 places away. Of a hundred one has the number of
    the work before it, and one a number that the same submitter's other files have too."""
    number, iswc = b"W%02d-%08d" % (file, place), file * 10_000_000 + place + 1
    if place % 100 == 98:
        number = b"W%02d-%08d" % (file, place - 1)
    elif place % 100 == 48:
        number = b"W%08d" % place
    if place % 10 < 3:
        return number, b" " * 11
    if place % 10 == 4:
        iswc = 700_000_000 + file // 3 * 1_000_000 + place
    elif place % 10 == 5:
        iswc = 800_000_000 + file % 21 * 1_000_000 + place
    return number, b"T%09d%d" % (iswc, check_digit(iswc))


def submission(case, file):
    """A file: its text in pieces, and how many works and records it has."""
    most_works, most_bytes = case.limits[file]
    drawn = []
    for which, form in enumerate(case.forms):
        count = 1 + len(form.records.split())
        # Works of more than 8 records are twice as many, and those of more than 14 three times.
        drawn += [(details(form, file * 1_000 + which * 20 + 1), count)] * (1 + (count > 8) + (count > 14))
    random.Random(file).shuffle(drawn)
    text = [b"HDRPB%09d%-45s01.102024050112000020240501%15s\r\n" % (101 + file % 31, b"PUBLISHER %d" % (101 + file % 31), b"")]
    # TRL has 26 bytes with its line end, and GRT 39.
    works, records, size = 0, 1, len(text[0]) + 26
    for group, kind in enumerate(case.kinds, 1):
        # Of two groups the first has nine tenths; the works of the second are those of the first once more.
        tenths = 10 if group == len(case.kinds) else 9
        text.append(b"GRH%s%05d02.200000000001  \r\n" % (kind, group))
        size += len(text[-1]) + 39
        before, inside = works, 2
        while works < most_works * tenths // 10:
            place = works - before
            number, iswc = claim(file, place)
            title = b"" if case.faulty and place % 40 == 17 else b"%s %d" % (TITLES[place % len(TITLES)], place)
            sequence, (pieces, count) = b"%08d" % place, drawn[works % len(drawn)]
            work = kind + sequence + HEAD % (title, number, iswc) + sequence.join(pieces)
            if size + len(work) > most_bytes * tenths // 10:
                break
            text.append(work)
            size += len(work)
            works += 1
            inside += count
        text.append(b"GRT%05d%08d%08d%13s\r\n" % (group, works - before, inside, b""))
        records += inside
    text.append(b"TRL%05d%08d%08d\r\n" % (len(case.kinds), works, records + 1))
    return text, works, records + 1


def refused(text, which, records):
    """A fault in a file, one of four, and how it is told: a control character in its first line, a count of the last group
    or of the file that is wrong, or no trailer."""
    if which == 0:
        text[0] = text[0].replace(b" ", b"\t", 1)
        return "refused F2 at line 1"
    if which == 3:
        text.pop()
        return f"refused F11 at line {records}"
    text[-which] = text[-which][:8] + b"%08d" % MANY + text[-which][16:]
    return f"refused F{11 - which} at line {records + 1 - which}"


# The files of a case: their names, the outcome of each, their bytes, and the works of those that are taken.
Night = collections.namedtuple("Night", "names outcomes bytes works")


def made(case, folder):
    """Writes the files of a case into a folder."""
    names, outcomes, size, taken = [], [], 0, 0
    for file in range(len(case.limits)):
        text, works, records = submission(case, file)
        if case.faulty and file % 17 == 7:
            outcomes.append(refused(text, file // 17, records))
        else:
            outcomes.append(f"acknowledged {works}")
            taken += works
        names.append(f"{file + 1:02d}.v22")
        whole = b"".join(text)
        assert len(whole) <= MAX_BYTES, (names[-1], len(whole))
        size += len(whole)
        with open(os.path.join(folder, names[-1]), "wb", buffering=0) as out:
            out.write(whole)
    return Night(names, outcomes, size, taken)


def digests(folder, night):
    """What a run left: the digest of each file that is no input."""
    found = {}
    for name in set(os.listdir(folder)) - set(night.names):
        with open(os.path.join(folder, name), "rb") as file:
            found[name] = hashlib.sha256(file.read()).hexdigest()
    return found


def other(printed, wanted):
    """The first line that is printed and is not the one that must be, with that one."""
    pairs = itertools.zip_longest(printed.decode(errors="replace").splitlines(), wanted.splitlines(), fillvalue="nothing")
    return next((f"{got!r} where it must print {line!r}" for got, line in pairs if got != line), "and prints what it must")


def ran(program, name, way, folder, night):
    """A run of the files one way, after what an earlier one left is removed: its seconds and memory, and what it left."""
    for file in set(os.listdir(folder)) - set(night.names):
        os.remove(os.path.join(folder, file))
    run = measured([program, *WORDS, *WAYS[way], "--to", "register", *night.names], folder)
    told = "".join(f"{file}: {outcome}\n" for file, outcome in zip(night.names, night.outcomes))
    acks = [file + ".ack" for file, outcome in zip(night.names, night.outcomes) if outcome.startswith("acknowledged")]
    wanted, left = {"register", "register.lock", *acks}, digests(folder, night)
    if (run.status, run.printed, run.complained) != (int(len(acks) < len(night.names)), told.encode(), b""):
        complained = run.complained.decode(errors="replace")[:1_000]
        sys.exit(f"{name}, {way}: status {run.status}, {other(run.printed, told)}; standard error: {complained!r}")
    if set(left) != wanted:
        sys.exit(f"{name}, {way}: not left {sorted(wanted - set(left))}, and left {sorted(set(left) - wanted)}")
    return run, left


def statuses(folder):
    """How many entries of each status the register has."""
    with open(os.path.join(folder, "register"), "rb") as file:
        counted = collections.Counter(line[146:148].decode() for line in file.read().split(b"\n")[1:-1])
    return ", ".join(f"{count} {status}" for status, count in sorted(counted.items()))


def timed(program, ways, turns, name, folder):
    """Times a case each way by turns, and tells it."""
    night = made(CASES[name], folder)
    runs, kept, entries = {way: [] for way in ways}, None, None
    orders = list(itertools.permutations(ways))
    for turn in range(turns):
        left = {}
        for way in orders[turn % len(orders)]:
            run, left[way] = ran(program, name, way, folder, night)
            runs[way].append(run)
            if way == "in turn":
                kept, entries = kept or left[way], entries or statuses(folder)
        for way in ("in turn", "in order"):
            for file in sorted(kept):
                if left[way][file] != kept[file]:
                    sys.exit(f"{name}, {way}: {file} of turn {turn + 1} is not that of the first run in turn")
    print(f"{name}: {len(night.names)} files, {night.bytes} bytes, {night.works} works: {entries}")
    for way, each in runs.items():
        seconds = [run.seconds for run in each]
        row = (statistics.median(seconds), min(seconds), max(seconds), max(run.memory for run in each) / 1e6)
        print("  %-10s %9.3f %9.3f %9.3f %9.1f" % (way, *row), flush=True)


def count(text):
    """A number of turns."""
    if not text.isdecimal() or int(text) < 1:
        raise argparse.ArgumentTypeError(f"{text!r} is no number of turns: at least 1 is needed")
    return int(text)


def cases(text):
    """Names of cases."""
    for name in text.split(","):
        if name not in CASES:
            raise argparse.ArgumentTypeError(f"no case {name!r}: there are {', '.join(CASES)}")
    return text.split(",")


def main():
    words = argparse.ArgumentParser(description=__doc__, formatter_class=argparse.RawDescriptionHelpFormatter)
    words.add_argument("program")
    words.add_argument("folder")
    words.add_argument("--turns", type=count, default=11)
    words.add_argument("--only", type=cases, default=list(CASES))
    words.add_argument("--one-processor", action="store_true")
    given = words.parse_args()
    program, ways = os.path.abspath(given.program), list(WAYS)
    if not os.access(program, os.X_OK):
        sys.exit(f"{program} is no program")
    if measured([program, *WORDS, "--in-order", "none.v22"], given.folder).status == 2:
        sys.exit(f"{program} does not take --in-order, so there is nothing to compare")
    if given.one_processor:
        os.sched_setaffinity(0, {min(os.sched_getaffinity(0))})
        ways.remove("at once")
    print("%-12s %9s %9s %9s %9s" % ("", "seconds", "least", "greatest", "MB"))
    for name in given.only:
        place = os.path.join(given.folder, name)
        os.mkdir(place)
        timed(program, ways, given.turns, name, place)
        shutil.rmtree(place)


if __name__ == "__main__":
    main()
