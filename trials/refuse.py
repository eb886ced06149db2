#!/usr/bin/env python3
"""Refuses each request for memory of a program in turn, the n-th alone: refuse.py PROGRAM LIBRARY EXAMPLES

LIBRARY is `refuse.c` as a shared library, EXAMPLES the folder of the sample files. For each command and for n = 1, 2 and
so on, until a run makes no n-th request, the run must end with the answer that it gives in ample memory, or as the profile
says of want of memory: by text, by status, and by what it leaves in files. Prints a table of the requests of a command
(the most of any run) and of its answers by kind, each other answer, and fails where there is one."""
import collections
import os
import re
import struct
import subprocess
import sys
import tempfile

sys.path.append(os.path.join(os.path.dirname(os.path.abspath(__file__)), "..", "bench"))

from expected import Decided, entry, register

# The name by which the program is started: `clap` tells it.
NAME = "purvilgo"
SECONDS = 20
ROUNDS_ON_THREADS = 5
LOCK = "new.register.lock"
OLD_ACK, OLD_REGISTER = b"AN OLD ACKNOWLEDGEMENT\n", b"AN OLD REGISTER\n"
STAMP = ["--society", "000", "--name", "CWR REGISTRY", "--date", "20240601", "--time", "090000"]
NO_MEMORY = b"stopped: memory\n"
KINDS = ["ample", "stopped: memory", "job: memory", "line left out", "--from: memory", "--to: memory"]

TITLE = b"SONG ONE".ljust(60)
CLAIMS = b"""submitter,number,work,version,title,iswc,performing,mechanical,synchronization
PB000000123,W1            ,1,1,%s,T0345246801,5000,5000,5000
""" % TITLE
WORKS = b"""work,iswc,performing,mechanical,synchronization,claims
1,T0345246801,5000,5000,5000,1
"""
CONFLICTS = b"""entry,submitter,kind,number,title,iswc,performing,mechanical,synchronization,status,work,version,faults
2,PB000000456,NWR,W1            ,%s,T0345246801,5007,5007,5007,CO,1,,
""" % TITLE
PLAIN = b"""submitter,number,work,version,title,iswc,performing_control,mechanical_control,synchronization_control
PB000000123,W1,1,1,SONG ONE,T0345246801,50.00,50.00,50.00
"""
OBJECTS = b'{"entry":2,"faults":[],"iswc":"T0345246801","kind":"NWR","mechanical_control":5007,"number":"W1            ","performing_control":5007,' \
    b'"status":"CO","submitter":"PB000000456","synchronization_control":5007,"title":"%s","version":null,"work":1}\n' % TITLE
HALF = b"  none: 0\n  up to a quarter: 0\n  up to a half: 1\n  more than a half: 0\n  all: 0\n"
SUMMARY = b"""entries: 2
accepted (AS): 1
duplicates (DU): 0
conflicts (CO): 1
rejected (RJ): 0
works: 1
current claims: 1
submitters: 2
works by what is left of the performing right:
%sworks by what is left of the mechanical right:
%sworks by what is left of the synchronization right:
%slargest conflicts:
  work 1: 1
""" % (HALF, HALF, HALF)
LEFT = b'{"all":0,"more_than_half":0,"none":0,"up_to_half":1,"up_to_quarter":0}'
MOST = b'[{"entries":1,"submitter":"PB000000123"},{"entries":1,"submitter":"PB000000456"}]'
SUMMARY_OBJECT = b'{"accepted":1,"conflicts":1,"current_claims":1,"duplicates":0,"entries":2,"largest_conflicts":[{"conflicts":1,"work":1}],' \
    b'"left":{"mechanical":%s,"performing":%s,"synchronization":%s},"most_entries":%s,"rejected":0,"submitters":2,"works":1}\n' % (LEFT, LEFT, LEFT, MOST)
UNANSWERED = b": group 1, transaction 0: no entry of the register answers it\n"
UNTOLD = b": group 1, transaction 0: not in the register as conflict-2.v22.ack has it\n"

Answer = collections.namedtuple("Answer", "status printed complained files")


class Wrong(Exception):
    pass


def want(holds, what):
    if not holds:
        raise Wrong(what)


class Command:
    """A command without files to write: its words, its answer in ample memory, of no words how many transactions may be
    handed in before a stop, whether it reads a register by `--from`, and whether it writes its answer as it goes, so that a
    stop may leave the beginning of it."""

    def __init__(self, words, status, printed=b"", complained=b"", files=(), given=b"", transactions=None, opening=False, streams=False):
        self.words, self.given, self.transactions, self.opening, self.streams = words, given, transactions, opening, streams
        self.files = dict(files)
        self.ample = Answer(status, printed, complained, self.files)
        self.rounds = 1

    def kind(self, answer):
        if answer == self.ample:
            return "ample"
        want(answer.files == self.files, "a file was changed")
        left = self.ample.printed if self.streams else b""
        want(answer.status == 1 and left.startswith(answer.printed), "status and standard output")
        if answer.complained == NO_MEMORY:
            return "stopped: memory"
        if self.opening and answer.complained == b"register: " + NO_MEMORY:
            return "--from: memory"
        want(self.transactions is not None, "standard error")
        if answer.complained == b"" and self.ample.status == 1:
            return "line left out"
        stopped = re.fullmatch(rb"-: stopped after (\d+): memory\n", answer.complained)
        want(stopped and int(stopped[1]) <= self.transactions, "standard error")
        return "job: memory"


class Checks:
    """`check` of several files: of each its name, its bytes or None where it is not there, and what is told of it on standard
    output and on standard error. What one file has no memory for is told by its name, and the others are checked all the same."""

    def __init__(self, options, checks, status):
        self.words = ["check", *options, *(name for name, *_ in checks)]
        self.given, self.checks, self.rounds = b"", checks, 1
        self.files = {name: text for name, text, *_ in checks if text is not None}
        self.ample = Answer(status, *self.told(), self.files)

    def told(self, stopped=None):
        """What is told on standard output and on standard error where one of the files is stopped."""
        rows = [(b"", name.encode() + b": " + NO_MEMORY) if name == stopped else (printed, complained) for name, _, printed, complained in self.checks]
        return b"".join(printed for printed, _ in rows), b"".join(complained for _, complained in rows)

    def kind(self, answer):
        if answer == self.ample:
            return "ample"
        want(answer.files == self.files, "a file was changed")
        want(answer.status == 1, "status")
        told = answer.printed, answer.complained
        if told == (b"", NO_MEMORY):
            return "stopped: memory"
        want(any(told == self.told(name) for name, *_ in self.checks), "what is told")
        return "job: memory"


class Run:
    """`run` of some files: of each its name, its bytes, its acknowledgement and the entries that it makes, each without
    its index; the register of `--from`, whether there is `--to`, and further options. Files to be written hold something
    already, but under `--no-clobber`."""

    def __init__(self, jobs, opening=None, to=False, options=()):
        self.jobs, self.opening, self.to = jobs, opening, to
        self.words = ["run", *options, *STAMP]
        self.given = b""
        self.files = {}
        if opening is not None:
            self.words += ["--from", "old.register"]
            self.files["old.register"] = register(opening)
        if to:
            self.words += ["--to", "new.register"]
            if "--no-clobber" not in options:
                self.files["new.register"] = OLD_REGISTER
        for name, text, _, _ in jobs:
            self.words.append(name)
            self.files[name] = text
            if "--no-clobber" not in options:
                self.files[name + ".ack"] = OLD_ACK
        self.rounds = 1 if "--in-turn" in options and len(jobs) == 1 else ROUNDS_ON_THREADS

    def kind(self, answer):
        if answer.printed == b"" and answer.complained == NO_MEMORY:
            want(answer.status == 1 and self.is_unchanged(answer.files), "status or files before any worker")
            return "stopped: memory"
        if answer.printed == b"" and answer.complained == b"register: " + NO_MEMORY and self.opening is not None:
            want(answer.status == 1 and self.is_unchanged(answer.files), "status or files before any worker")
            return "--from: memory"
        return self.kind_of_outcomes(answer)

    def is_unchanged(self, files):
        """Whether a run left all as it was, but for the empty file by which a register is locked."""
        return files in (self.files, {**self.files, LOCK: b""} if self.to else None)

    def kind_of_outcomes(self, answer):
        """The kind of an answer after the workers have ended. One request was refused, so at most one thing differs."""
        kinds, made, files = [], [], dict(self.files)
        lines = answer.printed.splitlines(keepends=True)
        for name, _, ack, entries in self.jobs:
            told = b"%s: acknowledged %d\n" % (name.encode(), len(entries))
            stopped = re.fullmatch(rb"%s: stopped after (\d+): memory\n" % re.escape(name.encode()), lines[0] if lines else b"")
            if stopped:
                want(int(stopped[1]) <= len(entries), "more handed in than there are")
                made.append(entries[: int(stopped[1])])
                kinds.append("job: memory")
                lines.pop(0)
                continue
            if lines and lines[0] == told:
                lines.pop(0)
            else:
                kinds.append("line left out")
            made.append(entries)
            files[name + ".ack"] = ack
        want(not lines, "standard output")
        if answer.complained != b"":
            want(self.to and answer.complained == b"register: " + NO_MEMORY, "standard error")
            kinds.append("--to: memory")
            # The acknowledgements are withheld.
            files = dict(self.files)
        elif self.to:
            new = answer.files.get("new.register")
            want(any(new == register((self.opening or []) + order) for order in orders(made)), "the register")
            files["new.register"] = new
        if self.to:
            files[LOCK] = b""
        want(len(kinds) <= 1, "more went wrong than one refusal can do")
        want(answer.files == files, "an acknowledgement, or another file")
        want(answer.status == (1 if kinds else 0), "status")
        return kinds[0] if kinds else "ample"


def orders(lists):
    """All ways to lay some lists into one, each in its order."""
    lists = [items for items in lists if items]
    if not lists:
        yield []
    for place, items in enumerate(lists):
        for rest in orders(lists[:place] + [items[1:]] + lists[place + 1 :]):
            yield items[:1] + rest


def decided(submitter, iswc, control, status, work, version, faults=()):
    """The entry of an NWR of the samples: all have one title and one number, and stand first in their file."""
    return entry(Decided(submitter, 1, 0, b"NWR", b"SONG ONE", b"W1", iswc, control, status, work, version, faults))


def commands(examples):
    """The commands with their answers, which stand in the profile and in the notes on the samples."""

    def sample(name):
        with open(os.path.join(examples, name), "rb") as file:
            return file.read()

    a, b, whole = b"PB000000123", b"PB000000456", [10000] * 3
    accepted = decided(a, b"", whole, b"AS", 1, 1)
    duplicate = decided(a, b"", whole, b"DU", 1, 0)
    rejected = decided(a, b"", [5007, 5000, 5000], b"RJ", 0, 0, [(0, 11, b"NWR")])
    first = decided(a, b"T0345246801", [5000] * 3, b"AS", 1, 1)
    second = decided(b, b"T0345246801", [5007] * 3, b"CO", 1, 0)
    job = lambda name, entries: (name, sample(name), sample(name + ".ack"), entries)
    lone = job("conflict-1.v22", [first])
    conflict = job("conflict-2.v22", [second])
    two = [job("accepted.v22", [accepted]), job("rejected.v22", [rejected])]
    both = register([first, second])
    pair = [lone, conflict]
    sent = [("r", both)] + [row for name, file, ack, _ in pair for row in ((name, file), (name + ".ack", ack))]
    astray = [("r", both), (pair[1][0], pair[1][1]), (pair[1][0] + ".ack", pair[0][2])]
    wrong = both.replace(b"CO", b"AS")
    file = lambda name: [(name, sample(name))]
    return [
        ("< duplicate.v22", Command([], 0, sample("duplicate.v22.ack"), given=sample("duplicate.v22"), transactions=2)),
        ("< rejected.v22", Command([], 0, sample("rejected.v22.ack"), given=sample("rejected.v22"), transactions=1)),
        ("< file-fault.v22", Command([], 1, complained=b"-: refused F9 at line 5\n", given=sample("file-fault.v22"), transactions=0)),
        ("check accepted.v22", Command(["check", "accepted.v22"], 0, b"00001 00000000 NWR ok\n1 transactions, 0 with faults\n", files=file("accepted.v22"))),
        ("check rejected.v22", Command(["check", "rejected.v22"], 1, b"00001 00000000 NWR rejected 0:J11\n1 transactions, 1 with faults\n", files=file("rejected.v22"))),
        ("check file-fault.v22", Command(["check", "file-fault.v22"], 1, b"refused F9 at line 5\n", files=file("file-fault.v22"))),
        ("check -", Command(["check", "-"], 0, b"00001 00000000 NWR ok\n1 transactions, 0 with faults\n", given=sample("accepted.v22"))),
        ("check --long remarks.v22", Command(["check", "--long", "remarks.v22"], 0, sample("remarks.long"), files=file("remarks.v22"))),
        ("check --long mistakes.v22", Command(["check", "--long", "mistakes.v22"], 1, sample("mistakes.long"), files=file("mistakes.v22"))),
        ("check --json remarks.v22", Command(["check", "--json", "remarks.v22"], 0, sample("remarks.json"), files=file("remarks.v22"))),
        ("check --quiet, two files", Checks(["--quiet"], [("accepted.v22", sample("accepted.v22"), b"", b""), ("rejected.v22", sample("rejected.v22"), b"rejected.v22: 00001 00000000 NWR rejected 0:J11\n", b"")], 1)),
        ("check, two files, one absent", Checks([], [("absent", None, b"", b"absent: stopped: read\n"), ("accepted.v22", sample("accepted.v22"), b"accepted.v22: 00001 00000000 NWR ok\naccepted.v22: 1 transactions, 0 with faults\n", b"")], 1)),
        ("check absent", Command(["check", "absent"], 1, complained=b"stopped: read\n")),
        ("audit, two entries", Command(["audit", "r"], 0, b"2 entries\n", files=[("r", both)])),
        ("audit -", Command(["audit", "-"], 0, b"2 entries\n", given=both)),
        ("audit --json, a wrong entry", Command(["audit", "--json", "r"], 1, b'{"entries":null,"fault":{"line":3,"rule":"G3"}}\n', files=[("r", wrong)])),
        ("audit, a wrong entry", Command(["audit", "r"], 1, b"refused G3 at line 3\n", files=[("r", wrong)])),
        ("claims", Command(["claims", "r"], 0, CLAIMS, files=[("r", both)], streams=True)),
        ("claims --plain", Command(["claims", "--plain", "r"], 0, PLAIN, files=[("r", both)], streams=True)),
        ("works --work 2", Command(["works", "--work", "2", "r"], 0, WORKS.splitlines(True)[0], b"no work matches\n", files=[("r", both)], streams=True)),
        ("works", Command(["works", "r"], 0, WORKS, files=[("r", both)], streams=True)),
        ("history --status CO", Command(["history", "--status", "CO", "r"], 0, CONFLICTS, files=[("r", both)], streams=True)),
        ("history --json --status CO", Command(["history", "--json", "--status", "CO", "r"], 0, OBJECTS, files=[("r", both)], streams=True)),
        ("summary", Command(["summary", "r"], 0, SUMMARY, files=[("r", both)])),
        ("summary --json", Command(["summary", "--json", "r"], 0, SUMMARY_OBJECT, files=[("r", both)])),
        ("verify, two files", Command(["verify", "r", *(name for name, *_ in pair)], 0, b"2 transactions of 2 files\n", files=sent)),
        ("verify, another's answer", Command(["verify", "r", pair[1][0]], 1, pair[1][0].encode() + UNTOLD, files=astray)),
        ("verify --ack", Command(["verify", "--ack", "a", "r", lone[0]], 0, b"1 transactions of 1 files\n", files=[("r", both), (lone[0], lone[1]), ("a", lone[2])])),
        ("answer", Command(["answer", *STAMP, "r", conflict[0]], 0, conflict[2], files=[("r", both), (conflict[0], conflict[1])], streams=True)),
        ("answer, no entry", Command(["answer", *STAMP, "r", conflict[0]], 1, complained=conflict[0].encode() + UNANSWERED, files=[("r", register([first])), (conflict[0], conflict[1])])),
        ("run", Run([job("duplicate.v22", [accepted, duplicate])])),
        ("run --to", Run([lone], to=True)),
        ("run --from", Run([conflict], opening=[first])),
        ("run --from --to", Run([conflict], opening=[first], to=True)),
        ("run --to, two files", Run(two, to=True)),
        ("run --in-turn --to, two files", Run(two, to=True, options=["--in-turn"])),
        ("run --in-turn --from --to", Run([conflict], opening=[first], to=True, options=["--in-turn"])),
        ("run --in-order --to, two files", Run(two, to=True, options=["--in-order"])),
        ("run --no-clobber --to, two files", Run(two, to=True, options=["--no-clobber"])),
        ("run --no-clobber, one is there", Command(["run", "--no-clobber", *STAMP, "f"], 1, complained=b"f.ack: is there already\n", files=[("f", lone[1]), ("f.ack", OLD_ACK)])),
        ("run --from, wrong register", Command(["run", *STAMP, "--from", "r", "f"], 1, complained=b"register: refused G3 at line 3\n", files=[("r", wrong), ("f", lone[1])], opening=True)),
        ("run, used twice", Command(["run", *STAMP, "f", "./f"], 2, complained=b"file used twice\n", files=[("f", lone[1])])),
        ("run, bad words", Command(["run", "--society", "7", *STAMP[2:], "f"], 2, complained=b"bad --society\n")),
    ]


def told_commands(program):
    """The version, and commands that are answered by a text of help: in ample memory that text, whatever it is, and
    status 2."""
    version = subprocess.run([NAME, "--version"], executable=program, capture_output=True, timeout=SECONDS).stdout
    assert re.fullmatch(rb"purvilgo \d+\.\d+\.\d+\n", version), version
    yield "--version", Command(["--version"], 0, version)
    yield "version", Command(["version"], 0, version)
    for words, part in [
        (["--help"], b"Usage: purvilgo [COMMAND]\n"),
        (["help"], b"Usage: purvilgo [COMMAND]\n"),
        (["help", "run"], b"Usage: purvilgo run "),
        (["check", "--help"], b"Usage: purvilgo check [OPTIONS] <FILE>...\n"),
        (["check"], b"<FILE>...\n"),
        (["run", "--society"], b"--society"),
        (["audit", "a", "b"], b"'b'"),
    ]:
        text = subprocess.run([NAME, *words], executable=program, stdin=subprocess.DEVNULL, capture_output=True, timeout=SECONDS).stderr
        assert part in text, (words, text)
        yield " ".join(words), Command(words, 2, complained=text)


def page_commands(program, examples):
    """Commands that are answered by a page for a browser: in ample memory that page, whatever it is, which must begin and
    end as one and have some texts, and nothing on standard error. The page of a check is written as it goes."""
    files = {}
    for name in ["accepted.v22", "file-fault.v22", "mistakes.v22", "remarks.v22"]:
        with open(os.path.join(examples, name), "rb") as file:
            files[name] = file.read()
    first = decided(b"PB000000123", b"T0345246801", [5000] * 3, b"AS", 1, 1)
    second = decided(b"PB000000456", b"T0345246801", [5007] * 3, b"CO", 1, 0)
    files["r"] = register([first, second])
    for words, status, parts in [
        (["check", "--html", "accepted.v22"], 0, [b"<h1>Check of accepted.v22</h1>\n", b">No faults in 1 transactions.<"]),
        (["check", "--html", "mistakes.v22"], 1, [b"<h1>Check of mistakes.v22</h1>\n", b">Faults</span> in 4 of 5 transactions.<"]),
        (["check", "--html", "remarks.v22"], 0, [b">No faults in 2 transactions.<", b"<h3>Line 4: SPU</h3>", b"<h3>Line 10: SWX</h3>"]),
        (["check", "--html", "file-fault.v22"], 1, [b'>Refused</span> by <a href="#F9.1">F9: ', b"</a>, at line 5.<"]),
        (["summary", "--html", "r"], 0, [b"<h1>Summary of r</h1>\n", b"<code>PB000000123</code>", b"<code>PB000000456</code>"]),
    ]:
        given = {words[-1]: files[words[-1]]}
        with tempfile.TemporaryDirectory() as folder:
            put_files(folder, given)
            run = subprocess.run([NAME, *words], executable=program, cwd=folder, stdin=subprocess.DEVNULL, capture_output=True, timeout=SECONDS)
        page = run.stdout
        assert (run.returncode, run.stderr) == (status, b""), (words, run.returncode, run.stderr)
        assert page.startswith(b"<!DOCTYPE html>\n") and page.endswith(b"</main>\n</body>\n</html>\n"), words
        assert all(part in page for part in parts), words
        yield " ".join(words), Command(words, status, page, files=given, streams=words[0] == "check")


def put_files(folder, files):
    """Writes files into a folder, by name."""
    for name, text in files.items():
        with open(os.path.join(folder, name), "wb") as file:
            file.write(text)


def files_in(folder):
    """The files of a folder, by name."""
    files = {}
    for name in os.listdir(folder):
        with open(os.path.join(folder, name), "rb") as file:
            files[name] = file.read()
    return files


def answer_of(program, library, command, nth):
    """The answer of a run whose n-th request is refused, or that it hangs; and how many requests it made."""
    with tempfile.TemporaryDirectory() as folder, tempfile.NamedTemporaryFile() as count:
        put_files(folder, command.files)
        count.write(bytes(8))
        count.flush()
        memory = {"LD_PRELOAD": library, "REFUSE_NTH": str(nth), "REFUSE_COUNT": count.name}
        try:
            run = subprocess.run([NAME, *command.words], executable=program, cwd=folder, env={**os.environ, **memory}, input=command.given, capture_output=True, timeout=SECONDS)
            answer = Answer(run.returncode, run.stdout, run.stderr, files_in(folder))
        except subprocess.TimeoutExpired:
            answer = None
        count.seek(0)
        return answer, struct.unpack("=Q", count.read(8))[0]


def sweep(program, library, command, found):
    """Refuses each request of a command in turn. Counts its answers by kind, and gives the most requests of a run and what
    was wrong, by what it is and with the requests after which it was so."""
    most, wrong = 0, {}
    for _ in range(command.rounds):
        nth = 0
        while True:
            answer, requests = answer_of(program, library, command, nth)
            most = max(most, requests)
            try:
                want(answer is not None, "it hangs")
                want(answer.status >= 0, "ended by a signal")
                kind = command.kind(answer)
                want(kind == "ample" or 0 < nth <= requests, "want of memory without a refusal")
                if 0 < nth <= requests:
                    found[kind] += 1
            except Wrong as what:
                shown = (str(what),) + ((answer.status, answer.printed[:200], answer.complained[:200]) if answer else ())
                wrong.setdefault(shown, []).append(nth)
                found["wrong"] += 1
            if requests < nth:
                break
            nth += 1
    return most, wrong


def ranges(numbers):
    """Some numbers as a text, each once and those in a row together."""
    spans = []
    for number in sorted(set(numbers)):
        if spans and spans[-1][1] == number - 1:
            spans[-1][1] = number
        else:
            spans.append([number, number])
    return ", ".join(str(first) if first == last else f"{first} to {last}" for first, last in spans)


def main(program, library, examples):
    program, library = os.path.abspath(program), os.path.abspath(library)
    failed = False
    print("%-33s %8s" % ("", "requests") + "".join(" %15s" % kind for kind in [*KINDS, "wrong"]))
    for name, command in [*commands(examples), *page_commands(program, examples), *told_commands(program)]:
        found = collections.Counter()
        most, wrong = sweep(program, library, command, found)
        print("%-33s %8d" % (name, most) + "".join(" %15d" % found[kind] for kind in [*KINDS, "wrong"]), flush=True)
        # A program that asks for nothing was not tried.
        if most == 0:
            wrong["no request was counted"] = []
        for shown, requests in wrong.items():
            print("  WRONG", shown, "at requests", ranges(requests), flush=True)
            failed = True
    sys.exit(1 if failed else 0)


main(*sys.argv[1:])
