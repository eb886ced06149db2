#!/usr/bin/env python3
"""Times whole runs of many files, and the audit of their registers: runs.py PROGRAM FOLDER

Prints for each the time, the greatest memory and both for each transaction, and checks what was printed and the
acknowledgements."""
import os
import shutil
import subprocess
import sys

from measured import measured

HERE = os.path.dirname(os.path.abspath(__file__))
WORDS = ["run", "--society", "007", "--name", "SOCIETY", "--date", "20240601", "--time", "090000"]
# files, transactions a file, and whether they claim each other's works
CASES = [(16, 625, ""), (16, 62_500, ""), (63, 250, ""), (63, 1_000, "shared")]


def timed(words, folder):
    """Runs a program in a folder: what it prints, its seconds, and its greatest memory in bytes."""
    run = measured(words, folder)
    assert run.status == 0, (words, run.status)
    return run.printed.decode().splitlines(), run.seconds, run.memory


def tell(what, count, wanted, printed, seconds, memory):
    assert printed == wanted, (what, printed)
    print("%-42s %9d %9.3f %11.2f %9.1f %9d" % (what, count, seconds, seconds * 1e6 / count, memory / 1e6, memory / count), flush=True)


def main(program, folder):
    program = os.path.abspath(program)
    print("%-42s %9s %9s %11s %9s %9s" % ("", "entries", "seconds", "us an entry", "MB", "B an entry"))
    for files, works, shared in CASES:
        place = os.path.join(folder, f"{files}-{works}{shared}")
        os.makedirs(place)
        subprocess.run([sys.executable, f"{HERE}/many.py", place, str(files), str(works), *shared.split()], check=True)
        names = sorted(os.listdir(place))
        what = f"{files} files of {works} transactions"
        wanted = [f"{name}: acknowledged {works}" for name in names]
        for how, words in (" in turn", ["--in-turn"]), ("", []):
            run = [program, *WORDS, *words, "--to", "register", *names]
            tell(f"run{how}, {what}", files * works, wanted, *timed(run, place))
            subprocess.run([sys.executable, f"{HERE}/acks.py", place], check=True)
        wanted = [f"{files * works} entries"]
        tell(f"audit, {what}", files * works, wanted, *timed([program, "audit", "register"], place))
        shutil.rmtree(place)


main(*sys.argv[1:])
