#!/usr/bin/env python3
"""Ends runs of a program in every way, and looks at what is there: durable.py PROGRAM

The runs go from a register to the same one, with files that have acknowledgements of an earlier run and one that has none.
Some take their files from a list, and so in groups. They are killed before each of their system calls (by strace), and at
random times; they find the disk full (a small tmpfs), a file that may not be written, links, devices; and two of them come
at once. Whatever happens, the register is the old one or the whole new one, byte for byte and by `audit`, and an
acknowledgement is the old one, or the whole new one whose decisions the register holds; of one that was cut the draft has
the first bytes that its outcome line tells. What is expected is worked out here from the profile. Prints a table, and fails
at the first thing that is otherwise."""
import collections
import contextlib
import os
import random
import re
import shutil
import signal
import stat
import subprocess
import sys
import tempfile
import time

sys.path.append(os.path.join(os.path.dirname(os.path.abspath(__file__)), "..", "bench"))

from expected import Decided, acknowledgement, entry, register
from many import check_digit, submission

SECONDS = 60
LISTED = ["--files-from", "names"]
STAMP = ["--society", "007", "--name", "SOCIETY", "--date", "20240601", "--time", "090000"]
CREATED = b"20240501120000"
OLD_ACK = b"AN OLD ACKNOWLEDGEMENT\n"
NOBODY = 65534
KILLS = int(os.environ.get("KILLS", "200"))
ROUNDS_OF_TWO = 50
# Drafts are put on the disk by threads, of which one does now more, now fewer: a run in which none has made a call as often
# as it is to be killed is made again.
TURNS = 20
# Calls of which a thread makes now more, now fewer: as it waits, or finds that it need not, or starts another one.
UNEVEN = {"futex", "madvise", "mprotect", "munmap", "rt_sigprocmask", "sched_yield"}

# A register before a run, by its entries; the files of the run, by name, with their transactions; and its words.
Case = collections.namedtuple("Case", "opening files words")
# How a run ended: its status, and what it printed.
Ended = collections.namedtuple("Ended", "status printed complained")


class Wrong(Exception):
    pass


def want(holds, what):
    if not holds:
        raise Wrong(what)


def transactions(file, works):
    """The transactions of a file of many.py, none of whose works is another's: each is accepted, by its own new work."""
    for place in range(works):
        number = file * works + place + 1
        yield b"PB%09d" % file, place, b"SONG %d" % number, b"W%d" % place, b"T%09d%d" % (number, check_digit(number))


def decided(transaction, work):
    submitter, place, title, number, iswc = transaction
    return Decided(submitter, 1, place, b"NWR", title, number, iswc, [10_000] * 3, b"AS", work, 1, ())


def a_case(opening, files, works, *options, listed=False):
    """A run of some files of so many works each, from a register of so many entries. Its files are words, or listed in
    the file `names`."""
    before = [decided(made, work) for work, made in enumerate(transactions(99, opening), 1)]
    named = {"%02d.v22" % file: list(transactions(file, works)) for file in range(1, files + 1)}
    words = ["run", *options, *STAMP, "--from", "book", "--to", "book", *(LISTED if listed else named)]
    return Case([entry(made) for made in before], named, words)


def set_up(folder, case):
    """A folder before a run: the files, all but the last with an older acknowledgement, and the register."""
    for number, (name, made) in enumerate(case.files.items(), 1):
        with open(os.path.join(folder, name), "wb") as file:
            file.write(submission(number, len(made), False))
        if number < len(case.files):
            with open(os.path.join(folder, name + ".ack"), "wb") as file:
                file.write(OLD_ACK)
    with open(os.path.join(folder, "book"), "wb") as file:
        file.write(register(case.opening))
    with open(os.path.join(folder, "names"), "w", encoding="utf-8") as file:
        file.writelines(name + "\n" for name in case.files)


def bytes_in(folder, name):
    with contextlib.suppress(FileNotFoundError):
        with open(os.path.join(folder, name), "rb") as file:
            return file.read()


def works_in(text, case):
    """The work of each transaction in a register after the run, which must hold its opening and then each transaction, in
    the order of its file and with a work of its own."""
    lines = text.split(b"\n")
    count = sum(len(made) for made in case.files.values())
    want(len(lines) == 2 + len(case.opening) + count, "the number of lines in the register")
    waiting = {name: list(made) for name, made in case.files.items()}
    entries, works = list(case.opening), {}
    for line in lines[1 + len(case.opening) : -1]:
        work = len(entries) + 1
        for name, made in waiting.items():
            if made and line == b"ENT%08d%s" % (work, entry(decided(made[0], work))):
                works[name, made.pop(0)] = work
                entries.append(line[11:])
                break
        else:
            raise Wrong("an entry of the register")
    want(text == register(entries), "the register")
    return works


def told_cut(ended, name):
    """How many bytes of its acknowledgement are in the draft of a stopped file, as its outcome line tells."""
    found = re.search(rb"^%s: stopped after \d+: write after (\d+) bytes$" % re.escape(name.encode()), ended.printed, re.M) if ended else None
    return int(found[1]) if found else None


def look(program, folder, case, ended=None):
    """What a run has left, which must be of the kinds that may be: whether the register is the new one, and how many
    acknowledgements are."""
    text = bytes_in(folder, "book")
    is_new = text != register(case.opening)
    works = works_in(text, case) if is_new else {}
    audit = subprocess.run([program, "audit", "book"], cwd=folder, capture_output=True, timeout=SECONDS)
    count = len(case.opening) + len(works)
    want((audit.returncode, audit.stdout) == (0, b"%d entries\n" % count), "the audit")
    acks = 0
    for index, (name, made) in enumerate(case.files.items(), 1):
        ack, cut = bytes_in(folder, name + ".ack"), told_cut(ended, name)
        older = ack == (OLD_ACK if index < len(case.files) else None)
        want(older or (is_new and cut is None), "an acknowledgement without its register, or one that was cut")
        if older and not (is_new and cut):
            continue
        whole = acknowledgement(7, b"SOCIETY", b"20240601", b"090000", CREATED, [decided(each, works[name, each]) for each in made])
        if older:
            want(bytes_in(folder, name + ".ack.new") == whole[:cut], "the draft of one that was cut")
        else:
            want(ack == whole, "an acknowledgement")
            acks += 1
    return is_new, acks


def beside(folder):
    """The drafts and the locks in a folder."""
    names = os.listdir(folder)
    return [name for name in names if name.endswith(".new")], [name for name in names if name.endswith(".lock")]


def run(program, folder, words, **more):
    done = subprocess.run([program, *words], cwd=folder, stdin=subprocess.DEVNULL, capture_output=True, timeout=SECONDS, **more)
    return Ended(done.returncode, done.stdout, done.stderr)


@contextlib.contextmanager
def fresh(case):
    with tempfile.TemporaryDirectory() as folder:
        set_up(folder, case)
        yield folder


def outcomes(case):
    return b"".join(b"%s: acknowledged %d\n" % (name.encode(), len(made)) for name, made in case.files.items())


def ends_well(program, folder, case):
    """A run that nothing disturbs: whatever was left there, all of it is in place after it, and nothing beside it but the
    lock."""
    ended = run(program, folder, case.words)
    want(ended == Ended(0, outcomes(case), b""), f"a run that nothing disturbs: {ended}")
    want(look(program, folder, case) == (True, len(case.files)), "what it leaves")
    want(beside(folder) == ([], ["book.lock"]), "what lies beside it")


def tell(what, count, *told):
    print("%-34s %7d  %s" % (what, count, "; ".join("%d %s" % pair for pair in told)), flush=True)


def goes_on_after(program, folder, case, is_new):
    """The same run once more, after one that was ended from outside: it is not in use, and ends well. Where the register
    was kept already, each work is a duplicate."""
    if not is_new:
        ends_well(program, folder, case)
        return
    ended = run(program, folder, case.words)
    want(ended == Ended(0, outcomes(case), b""), "a run after one that was kept")
    want(beside(folder) == ([], ["book.lock"]), "what lies beside it")


def calls_of(program, case):
    """The system calls of a run that nothing disturbs, but the one that starts it: of each its name, and how often one
    thread has called that so far, as strace counts them. Where several threads call it so often, it is there once."""
    with fresh(case) as folder, tempfile.NamedTemporaryFile("r") as log:
        subprocess.run(["strace", "-f", "-o", log.name, program, *case.words], cwd=folder, check=True, capture_output=True, timeout=SECONDS)
        counts = collections.Counter()
        found = {}
        for thread, name in re.findall(r"^(\d+) +(\w+)\(", log.read(), re.M):
            counts[thread, name] += 1
            if name != "execve":
                found[name, counts[thread, name]] = None
        return list(found)


def kills_at_each_call(program, what, case):
    """Kills a run before each of its system calls."""
    calls = calls_of(program, case)
    new, acks, drafts, ended_before = 0, 0, 0, 0
    for name, nth in calls:
        for turn in range(TURNS):
            with fresh(case) as folder:
                injected = ["strace", "-f", "-o", "/dev/null", "-e", f"inject={name}:signal=KILL:when={nth}"]
                ended = subprocess.run([*injected, program, *case.words], cwd=folder, capture_output=True, timeout=SECONDS)
                if ended.returncode == 0 and name not in UNEVEN and turn + 1 < TURNS:
                    continue
                want(ended.returncode == -signal.SIGKILL or (name in UNEVEN and ended.returncode == 0), f"not killed at {name} {nth}: {ended}")
                ended_before += ended.returncode == 0
                is_new, placed = look(program, folder, case)
                new, acks, drafts = new + is_new, acks + placed, drafts + len(beside(folder)[0])
                goes_on_after(program, folder, case, is_new)
                break
    want(0 < new < len(calls), "no run was killed after its register was kept, or none before")
    tell(f"a kill before each call: {what}", len(calls), (len(calls) - new, "old registers"), (new, "new"), (acks, "new acknowledgements"), (drafts, "drafts left"), (ended_before, "had ended"))


def kills_at_random(program, what, case):
    """Kills runs at random times, some of them before they begin to write and some after they have ended."""
    with fresh(case) as folder:
        start = time.perf_counter()
        run(program, folder, case.words)
        most = 1.1 * (time.perf_counter() - start)
    found = collections.Counter()
    for _ in range(KILLS):
        with fresh(case) as folder:
            child = subprocess.Popen([program, *case.words], cwd=folder, stdin=subprocess.DEVNULL, stdout=subprocess.DEVNULL)
            time.sleep(random.uniform(0, most))
            child.kill()
            found["had ended"] += child.wait() == 0
            is_new, placed = look(program, folder, case)
            found["new"] += is_new
            found["new acknowledgements"] += placed
            goes_on_after(program, folder, case, is_new)
    told = [(found[what], what) for what in ("new", "new acknowledgements", "had ended")]
    tell(f"kills at random times: {what}", KILLS, (KILLS - found["new"], "old registers"), *told)


@contextlib.contextmanager
def small_disk(case, **limits):
    """A disk of memory with the files of a case on it, and then so much room left: pages of 4096 bytes, or files."""
    with tempfile.TemporaryDirectory() as folder:
        subprocess.run(["mount", "-t", "tmpfs", "-o", "size=4m,nr_inodes=1000", "tmpfs", folder], check=True)
        try:
            set_up(folder, case)
            found = os.statvfs(folder)
            pages = found.f_blocks - found.f_bfree + limits.get("pages", 500)
            files = found.f_files - found.f_ffree + limits.get("files", 500)
            subprocess.run(["mount", "-o", f"remount,size={pages * found.f_frsize},nr_inodes={files}", folder], check=True)
            yield folder
        finally:
            subprocess.run(["umount", folder], check=True)


def full_disks(program, what, most):
    """Runs on disks with room for ever more, until one that has room for all."""
    case = a_case(100, 3, 40, "--in-turn")
    kinds = collections.Counter()
    for room in range(most):
        with small_disk(case, **{what: room}) as folder:
            ended = run(program, folder, case.words)
            is_new, placed = look(program, folder, case, ended)
            whole = ended == Ended(0, outcomes(case), b"")
            kept = not re.search(rb"^register: stopped: write after \d+ bytes$", ended.complained, re.M)
            want(ended.status == (0 if whole else 1), "the status")
            want(is_new == kept, "the register and what is told of it")
            want(kept or placed == 0, "an acknowledgement whose register was not kept")
            cut = [name + ".ack.new" for name in case.files if kept and told_cut(ended, name)]
            want(sorted(beside(folder)[0]) == cut, "a draft is left, or one that was cut is not")
            kinds["all in place" if whole else "register kept" if kept else "register not kept"] += 1
            if whole:
                break
    want(kinds["all in place"] == 1 and kinds["register not kept"] > 0, f"disks that are full, and one that is not: {kinds}")
    tell(f"a disk with room for 0, 1.. {what}", sum(kinds.values()), *((count, kind) for kind, count in kinds.items()))


def two_at_once(program):
    """Two runs at one register. One of them reads a pipe, and so goes on for as long as it is to."""
    one, other = a_case(100, 2, 8), a_case(100, 2, 8, "--in-turn")
    with fresh(one) as folder:
        os.mkfifo(os.path.join(folder, "pipe"))
        held = subprocess.Popen([program, *one.words[:-2], "pipe"], cwd=folder, stdout=subprocess.PIPE, stderr=subprocess.PIPE)
        into = open(os.path.join(folder, "pipe"), "wb")
        before = {name: bytes_in(folder, name) for name in os.listdir(folder) if name != "pipe"}
        for words in (other.words, other.words[:-1] + ["absent"], [*other.words[:-6], "--from", "absent", "--to", "./book", "01.v22"]):
            want(run(program, folder, words) == Ended(1, b"", b"register: in use\n"), "a second run")
        want({name: bytes_in(folder, name) for name in before} == before and beside(folder)[0] == [], "what a second run leaves")
        into.write(submission(1, 8, False))
        into.close()
        want(held.communicate(timeout=SECONDS) == (b"pipe: acknowledged 8\n", b"") and held.returncode == 0, "the first run")
    with fresh(one) as folder:
        os.mkfifo(os.path.join(folder, "pipe"))
        held = subprocess.Popen([program, *one.words[:-2], "pipe"], cwd=folder, stdout=subprocess.DEVNULL)
        with open(os.path.join(folder, "pipe"), "wb"):
            want(run(program, folder, other.words).complained == b"register: in use\n", "a run while another is at work")
            held.kill()
            held.wait()
        ends_well(program, folder, other)
    tell("two runs, one of them waiting", 2, (4, "refused as in use"), (1, "goes on at once after a kill"))


def two_in_a_race(program):
    """Two runs on the same files that begin together, or one a little later: each is refused or has the register for
    itself, so the history has each decision once, or the second time as a duplicate."""
    case = a_case(1_000, 2, 400, "--in-turn")
    refused = 0
    for _ in range(ROUNDS_OF_TWO):
        with fresh(case) as folder:
            children = []
            for _ in range(2):
                children.append(subprocess.Popen([program, *case.words], cwd=folder, stdout=subprocess.PIPE, stderr=subprocess.PIPE))
                time.sleep(random.uniform(0, 0.01))
            ended = [(*child.communicate(timeout=SECONDS), child.returncode) for child in children]
            well, used = (outcomes(case), b"", 0), (b"", b"register: in use\n", 1)
            want(sorted(ended) in ([well] * 2, sorted([used, well])), f"two runs at once: {ended}")
            want(beside(folder)[0] == [], "a draft is left")
            if used in ended:
                refused += 1
                want(look(program, folder, case) == (True, 2), "what the one run leaves")
            else:
                want(bytes_in(folder, "book").startswith(b"REG%08d\n" % (1_000 + 4 * 400)), "the entries of two runs")
    tell("two runs that begin together", ROUNDS_OF_TWO, (refused, "refused as in use"), (ROUNDS_OF_TWO - refused, "one after the other"))


def guards(program):
    """Links stay links, permissions stay, and what is no regular file or may not be written is not replaced."""
    case = a_case(10, 2, 8, "--in-turn")
    with fresh(case) as folder:
        os.rename(os.path.join(folder, "book"), os.path.join(folder, "there"))
        os.symlink("there", os.path.join(folder, "book"))
        os.chmod(os.path.join(folder, "there"), 0o640)
        os.rename(os.path.join(folder, "01.v22.ack"), os.path.join(folder, "far"))
        os.symlink("far", os.path.join(folder, "01.v22.ack"))
        want(run(program, folder, case.words) == Ended(0, outcomes(case), b""), "a run through links")
        want(look(program, folder, case) == (True, 2), "what it leaves")
        want([os.readlink(os.path.join(folder, name)) for name in ("book", "01.v22.ack")] == ["there", "far"], "a link")
        want(stat.S_IMODE(os.stat(os.path.join(folder, "there")).st_mode) == 0o640, "the permissions")
        want(beside(folder) == ([], ["there.lock"]), "what lies beside it")
    for device, ended in (("/dev/null", Ended(0, outcomes(case), b"")), ("/dev/full", Ended(1, outcomes(case), b"register: stopped: write after 0 bytes\n"))):
        with fresh(case) as folder:
            words = [device if before == "--to" else word for before, word in zip(["", *case.words], case.words)]
            want(run(program, folder, words) == ended, f"a register that goes to {device}")
            want(stat.S_ISCHR(os.stat(device).st_mode) and beside(folder) == ([], []), f"{device} itself")
    with fresh(case) as folder:
        os.chmod(folder, 0o777)
        os.chmod(os.path.join(folder, "book"), 0o444)
        as_nobody = {"user": NOBODY} if os.getuid() == 0 else {}
        ended = run(program, folder, case.words, **as_nobody)
        want((ended.status, ended.complained) == (1, b"register: stopped: write after 0 bytes\n"), f"a register that may not be written: {ended}")
        want(look(program, folder, case) == (False, 0) and beside(folder)[0] == [], "what it leaves")
    with fresh(case) as folder:
        for name in ("book.new", "01.v22.ack.new"):
            with open(os.path.join(folder, name), "wb") as file:
                file.write(b"LEFT BY A CRASH\n" * 1_000)
        ends_well(program, folder, case)
    tell("links, permissions, devices, drafts", 5)


def calls_in_order(program, case, words):
    """The calls of a run that bring files in place, as strace tells them once they have ended."""
    with fresh(case) as folder, tempfile.NamedTemporaryFile("r") as log:
        if "--no-clobber" in words:
            for name in os.listdir(folder):
                if name.endswith(".ack"):
                    os.unlink(os.path.join(folder, name))
        watched = ["strace", "-f", "-y", "-e", "trace=fsync,fdatasync,rename,renameat,renameat2,link,linkat", "-o", log.name]
        subprocess.run([*watched, program, *words], cwd=folder, check=True, capture_output=True, timeout=SECONDS)
        place = re.escape(os.path.realpath(folder))
        syncing = {}
        for line in log:
            thread = line.split()[0]
            synced = re.search(rf"fsync\(\d+<{place}(?:/([^>]*))?>", line)
            named = re.search(r'(rename|link)\w*\((?:AT_FDCWD, )?"(?:[^"]*/)?([^"/]*)", .*\)\s+= 0', line)
            if synced:
                syncing[thread] = "sync " + (synced[1] or ".")
            if named:
                yield f"{named[1]} {named[2]}"
            elif "fsync" in line and line.rstrip().endswith("= 0"):
                yield syncing[thread]


def order_of_calls(program):
    """The drafts of the acknowledgements are on the disk first, in any order; then the register's draft, its name, and the
    folder of that; and only then the acknowledgements take their names, and their folder is put on the disk once."""
    kept = ["sync book.new", "rename book.new", "sync ."]
    for files, *options in [(2, "--in-turn"), (63, "--in-turn"), (63, "--in-order"), (63,)]:
        case = a_case(10, files, 8, *options)
        drafts = [name + ".ack.new" for name in case.files]
        count = 0
        for words, register, names in (
            (case.words, kept, "rename"),
            (["run", *options, *STAMP, *case.files], [], "rename"),
            (["run", "--no-clobber", *case.words[1:]], kept, "link"),
        ):
            found = list(calls_in_order(program, case, words))
            want(sorted(found[:files]) == ["sync " + draft for draft in drafts], f"the drafts: {found}")
            want(found[files:] == register + [f"{names} {draft}" for draft in drafts] + ["sync ."], f"the order of the calls: {found}")
            count += len(found)
        tell(" ".join(["syncs and names of files:", str(files), *options]), count)


def main(program):
    program = os.path.abspath(program)
    if shutil.which("strace") is None:
        sys.exit("durable.py: strace is not there")
    random.seed(20)
    print("%-34s %7s" % ("", "runs"))
    guards(program)
    order_of_calls(program)
    kills_at_each_call(program, "words", a_case(100, 3, 8, "--in-turn"))
    kills_at_each_call(program, "a list", a_case(100, 66, 1, "--in-turn", listed=True))
    kills_at_random(program, "in turn", a_case(1_000, 8, 400, "--in-turn"))
    kills_at_random(program, "at once", a_case(1_000, 8, 400))
    kills_at_random(program, "a list", a_case(1_000, 200, 20, listed=True))
    full_disks(program, "pages", 60)
    full_disks(program, "files", 20)
    two_at_once(program)
    two_in_a_race(program)


main(*sys.argv[1:])
