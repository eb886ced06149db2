"""The workloads of workloads.txt, for bench/run and bench/count.

Each line there is NAME CRATE WORD..: the program crates/CRATE/out/CRATE of a built checkout is run with these words
in that checkout's folder bench/. Of a word N/SMALL the first number is the size that bench/run times, and the second
the one that bench/count counts; a third one, N/SMALL/RUNS, is the number of runs that bench/count makes. The word
SEED stands for a number, and a last word <FILE makes a file of that folder the standard input."""
import argparse
import os
import subprocess
import sys

HERE = os.path.dirname(os.path.abspath(__file__))


class Workload:
    """A line of workloads.txt, at its size or at its small one."""

    def __init__(self, line, seed, is_small):
        self.name, self.crate, *words = line.split()
        self.input = words.pop()[1:] if words and words[-1].startswith("<") else None
        self.words, self.runs = [str(seed) if word == "SEED" else word for word in words], 1
        for place, word in enumerate(self.words):
            size, *small = word.split("/")
            self.words[place] = small[0] if small and is_small else size
            self.runs = int(small[1]) if small[1:] else self.runs

    def run(self, checkout, *before):
        """Runs it once in a checkout, with these words before the program's, and answers what it printed."""
        bench = os.path.join(checkout, "bench")
        program = os.path.join(checkout, "crates", self.crate, "out", self.crate)
        if not os.path.isfile(program):
            sys.exit(f"{program} is not there: rt run in crates/{self.crate} builds it")
        with open(os.path.join(bench, self.input) if self.input else os.devnull, "rb") as given:
            done = subprocess.run([*before, program, *self.words], cwd=bench, stdin=given, stdout=subprocess.PIPE)
        if done.returncode != 0:
            sys.exit(f"{self.name}: status {done.returncode} in {checkout}")
        return done.stdout

    def compare(self, one, other):
        """Says where what it printed differs from what it printed before, and ends with status 1."""
        if one != other:
            sys.exit(f"{self.name}: the outputs differ: {one!r} and {other!r}")


def workloads(seed, only, is_small=False):
    """The workloads of these names, in the order of workloads.txt; all of them where no name is given."""
    with open(os.path.join(HERE, "workloads.txt"), encoding="ascii") as lines:
        every = [Workload(line, seed, is_small) for line in lines if line.strip() and not line.startswith("#")]
    names = [one.name for one in every]
    for name in only:
        if name not in names:
            sys.exit(f"no workload {name!r}: there are {', '.join(names)}")
    return [one for one in every if not only or one.name in only]


def add_words(words):
    """Adds to a command line what bench/run and bench/count both take."""
    words.add_argument("old", type=os.path.abspath)
    words.add_argument("new", type=os.path.abspath)
    words.add_argument("seed", nargs="?", type=seed, default=1)
    words.add_argument("--only", type=lambda names: names.split(","), default=[])
    words.add_argument("--table", action="store_true")


def seed(text):
    """A number that the inputs follow from."""
    if not text.isdecimal() or int(text) >= 2**32:
        raise argparse.ArgumentTypeError(f"{text!r} is no seed: a number below 4294967296 is needed")
    return int(text)
