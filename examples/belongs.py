#!/usr/bin/env python3
"""Says whether an acknowledgement answers a file and contains what a register decided: belongs.py REGISTER FILE ACK

FILE is the submission, ACK its acknowledgement. Each transaction of FILE has one ACK record, in file order, with its
group, sequence, type, title and number; and these records, in their order, are entries of the register, in its order,
with the file's submitter, and the title, number, status and work that they tell. The register is taken as it stands:
`purvilgo audit` says whether it is one."""
import sys


def lines_of(path):
    """The lines of a CWR file, without their ends, as if blanks followed."""
    return [line.rstrip(b"\r\n").ljust(200) for line in open(path, "rb")]


def submitted(path):
    """The submitter, and each transaction: group, sequence, type, title, number."""
    submitter, group, found = None, None, []
    for line in lines_of(path):
        if line[:3] == b"HDR":
            submitter = line[3:14]
        elif line[:3] == b"GRH":
            group = line[6:11]
        elif line[:3] in (b"NWR", b"REV"):
            found.append((group, line[3:11], line[:3], line[19:79], line[81:95]))
    return submitter, found


def acknowledged(path):
    """Each ACK record: the transaction that it names, and status and work."""
    records = [line for line in lines_of(path) if line[:3] == b"ACK"]
    return [((line[33:38], line[38:46], line[46:49], line[49:109], line[109:123]), (line[157:159], line[129:137])) for line in records]


def entries(path):
    """Each entry of a register: submitter, type, title, number, status, work."""
    for line in open(path, "rb").read().split(b"\n")[1:-1]:
        work = line[148:156]
        yield line[11:22], line[22:25], line[25:85], line[85:99], line[146:148], work if work != b"00000000" else b" " * 8


def main(register, file, ack):
    submitter, transactions = submitted(file)
    told = acknowledged(ack)
    if [transaction for transaction, _ in told] != transactions:
        return "the acknowledgement does not answer the transactions of the file"
    rest = entries(register)
    for number, ((_, _, kind, title, key), (status, work)) in enumerate(told, 1):
        if not any(entry == (submitter, kind, title, key, status, work) for entry in rest):
            return f"ACK record {number} has no entry in the register, after those of the records before it"
    return None


if len(sys.argv) != 4:
    sys.exit(__doc__)
wrong = main(*sys.argv[1:])
print(wrong or "the acknowledgement contains what the register decided")
sys.exit(1 if wrong else 0)
