"""What the profile says is written: acknowledgements and registers, from the parts of a transaction and its decision."""
import collections

# A transaction as submitted, with its decision: what an entry of the history holds, and where it stood in its file. A
# fault is its record sequence, its number and the type of its record.
Decided = collections.namedtuple("Decided", "submitter group sequence kind title number iswc control status work version faults")

TEXTS = {
    2: b"TITLE IS BLANK",
    6: b"SHARE IS NOT VALID",
    7: b"INTERESTED PARTY NUMBER IS BLANK",
    11: b"PR OWNERSHIP TOTAL IS NOT VALID",
}


def entry(made):
    """An entry of a register, without its type and its index."""
    text = b"%-11s%3s%-60s%-14s%-11s" % (made.submitter, made.kind, made.title, made.number, made.iswc)
    text += b"".join(b"%012d" % share for share in made.control)
    text += b"%2s%08d%08d%09d" % (made.status, made.work, made.version, len(made.faults))
    return text + b"".join(b"%08d%02d%3s" % fault for fault in made.faults)


def register(entries):
    """The register of these entries."""
    lines = [b"ENT%08d%s\n" % (index, text) for index, text in enumerate(entries, 1)]
    return b"REG%08d\n" % len(entries) + b"".join(lines)


def acknowledgement(society, name, date, time, created, decided):
    """The acknowledgement of a file that was created at this date and time, the decided transactions being its own."""
    lines = [b"HDRSO000000%03d%-45s01.10%8s%6s%8s%15s2.2001%-30s%-30s" % (society, name, date, time, date, b"", b"CWR REGISTRY", b"1.0")]
    lines.append(b"GRHACK0000102.200000000000  ")
    messages = 0
    for place, made in enumerate(decided):
        work = b"%08d" % made.work if made.status != b"RJ" else b""
        lines.append(
            b"ACK%08d00000000%14s%05d%08d%3s%-60s%-20s%-20s%8s%2s"
            % (place, created, made.group, made.sequence, made.kind, made.title, made.number, work, date, made.status)
        )
        for index, (record, number, kind) in enumerate(made.faults, 1):
            lines.append(b"MSG%08d%08dT%08d%3sT%03d%-150s" % (place, index, record, kind, number, TEXTS[number]))
        messages += len(made.faults)
    lines.append(b"GRT00001%08d%08d%13s" % (len(decided), len(decided) + 2 + messages, b""))
    lines.append(b"TRL00001%08d%08d" % (len(decided), len(decided) + 4 + messages))
    return b"".join(line + b"\r\n" for line in lines)
