#!/usr/bin/env python3
"""Checks the acknowledgements of a run against facts that hold of every order of its workers: acks.py FOLDER

The folder has files of many.py and, beside each, its acknowledgement. Each transaction has one acknowledgement, in file
order; works are numbered without a gap; a duplicate names the work of its number; a work has one ISWC and an ISWC one
work; no work's control is above 100.06 per cent; and each conflict has a cause."""
import collections
import glob
import sys

MAX = 10_006
Claim = collections.namedtuple("Claim", "key kind title iswc control")


def claims_of(path):
    """The transactions of a submitted file, in order."""
    submitter, claims = None, []
    for line in open(path, "rb").read().split(b"\r\n"):
        if line[:3] == b"HDR":
            submitter = line[3:14]
        elif line[:3] in (b"NWR", b"REV"):
            claims.append(Claim((submitter, line[81:95]), line[:3], line[19:79], line[95:106].strip(), [0]))
        elif line[:3] == b"SWR":
            claims[-1].control[0] += int(line[129:134])
    return claims


def replies_of(path):
    """What was acknowledged: kind, title, number, work, status, in order."""
    lines = open(path, "rb").read().split(b"\r\n")
    assert lines[0][:3] == b"HDR" and lines[-2][:3] == b"TRL" and lines[-1] == b"", path
    acks = [line for line in lines if line[:3] == b"ACK"]
    for place, line in enumerate(acks):
        assert line[3:11] == b"%08d" % place and line[38:46] == b"%08d" % place, (path, place)
    return [(line[46:49], line[49:109], line[109:123], line[129:137].strip(), line[157:159]) for line in acks]


def main(folder):
    accepted, numbers, statuses = collections.defaultdict(list), set(), collections.Counter()
    others = []
    for path in sorted(glob.glob(f"{folder}/*.v22")):
        claims, replies = claims_of(path), replies_of(path + ".ack")
        assert len(claims) == len(replies), path
        for claim, (kind, title, number, work, status) in zip(claims, replies):
            assert (claim.kind, claim.title, claim.key[1]) == (kind, title, number), path
            statuses[status.decode()] += 1
            if status == b"AS":
                accepted[claim.key].append((int(work), claim))
                numbers.add(int(work))
            else:
                others.append((claim, int(work), status))
    assert numbers == set(range(1, len(numbers) + 1)), "works are numbered without a gap"
    control, named, names = collections.Counter(), {}, {}
    for key, rows in accepted.items():
        assert len({work for work, _ in rows}) == 1, f"one submitter's number, two works: {key}"
        assert sum(claim.kind == b"NWR" for _, claim in rows) <= 1, f"a new work twice: {key}"
        control[rows[0][0]] += rows[-1][1].control[0]
        for work, claim in rows:
            if claim.iswc:
                assert named.setdefault(claim.iswc, work) == work, f"an ISWC of two works: {claim.iswc}"
                assert names.setdefault(work, claim.iswc) == claim.iswc, f"a work of two ISWCs: {work}"
    for work, share in control.items():
        assert share <= MAX, f"control of work {work} is {share}"
    for claim, work, status in others:
        assert work in numbers, f"a {status.decode()} of no work"
        if status == b"DU":
            assert accepted[claim.key][0][0] == work, f"a duplicate of another work: {claim.key}"
        else:
            assert status == b"CO", status
            differs = claim.iswc and names.get(work) not in (None, claim.iswc)
            assert differs or control[work] + claim.control[0] > MAX, f"a conflict without a cause: {claim.key}"
    print(f"{sum(statuses.values())} transactions, {len(numbers)} works,", dict(statuses))


main(sys.argv[1])
