#!/usr/bin/env python3
"""Counts the threads that a program starts, and refuses them: threads.py PROGRAM LIBRARY EXAMPLES

LIBRARY is `threads.c` as a shared library, EXAMPLES the folder of the sample files. A run of three files must start a
thread for each, none in turn, and two in order: there up to eight files are read together, each but the last on a thread
of its own, before anything of them is decided, and acknowledgements as short as these are written without a thread. Then
it must start one more, as two of the files are acknowledged, whose drafts are put on the disk beside one another. Where
the first, the second or another is refused, and all after it, what it prints, answers and writes must be the same."""
import os
import struct
import subprocess
import sys
import tempfile

STAMP = ["--society", "000", "--name", "CWR REGISTRY", "--date", "20240601", "--time", "090000"]
SECONDS = 20
# Files whose outcomes do not depend on their order, as the notes on the samples tell them.
TOLD = b"accepted.v22: acknowledged 1\nfile-fault.v22: refused F9 at line 5\nrejected.v22: acknowledged 1\n"
NAMES = ["accepted.v22", "file-fault.v22", "rejected.v22"]
ACKNOWLEDGED = ["accepted.v22", "rejected.v22"]


def sample(examples, name):
    with open(os.path.join(examples, name), "rb") as file:
        return file.read()


def run(program, library, examples, options, refused):
    """A run of the samples, of whose threads those from this number on are refused; and how many were started."""
    with tempfile.TemporaryDirectory() as folder, tempfile.NamedTemporaryFile() as count:
        for name in NAMES:
            with open(os.path.join(folder, name), "wb") as file:
                file.write(sample(examples, name))
        count.write(bytes(8))
        count.flush()
        preloaded = {"LD_PRELOAD": library, "REFUSE_FROM": str(refused), "REFUSE_COUNT": count.name}
        ran = subprocess.run([program, "run", *options, *STAMP, *NAMES], cwd=folder, env={**os.environ, **preloaded}, capture_output=True, timeout=SECONDS)
        written = {name: sample(folder, name) for name in os.listdir(folder) if name.endswith(".ack")}
        count.seek(0)
        return (ran.returncode, ran.stdout, ran.stderr, written), struct.unpack("=Q", count.read(8))[0]


def main(program, library, examples):
    program, library = os.path.abspath(program), os.path.abspath(library)
    acks = {name + ".ack": sample(examples, name + ".ack") for name in ACKNOWLEDGED}
    cases = []
    for options, most in (["--in-turn"], 1), ([], 4), (["--in-order"], 3):
        cases += [(options, 0, most)] + [(options, refused, refused - 1) for refused in range(1, most + 1)]
    for options, refused, threads in cases:
        answer, started = run(program, library, examples, options, refused)
        what = " ".join(["run", *options]) + (f", refused from thread {refused} on" if refused else "")
        if (answer, started) != ((1, TOLD, b"", acks), threads):
            sys.exit(f"{what}: {started} threads, {answer}")
        print(f"{what}: {started} threads, and the answer of all")


main(*sys.argv[1:])
