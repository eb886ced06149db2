#!/usr/bin/env python3
"""Continues a register for a day: runs files, one after the other, against the registry of REGISTER.

    day.py [--begin] REGISTER SOCIETY NAME YYYYMMDD HHMMSS FILE..

With --begin it runs them against an empty one, and REGISTER may not exist. Otherwise it must exist, so that no wrong name
begins a second history. It prints how the work on each FILE ended, as `purvilgo run` does, and writes REGISTER again and
FILE.ack of each that was acknowledged. The register takes its name first, so that nobody finds an answer that it does not
have. If it cannot be kept, no answer is left. If an answer then cannot take its name, it stays in FILE.ack.new. Unlike
`purvilgo run` it does not wait for the disk: a crash of the system may undo what was written.

REGISTER.lock is locked from before REGISTER is read until all is in place. So of two programs at one register, this one or
`purvilgo run`, the second prints that it is in use, and reads and writes nothing. If REGISTER is a link, the file that it
leads to is locked and replaced.

What cannot be read or kept is reported on standard error. The status is 0 if all files were acknowledged and all was
written; 2 if the words are no stamp, or name one file twice; else 1.
"""

import contextlib
import datetime
import fcntl
import os
import pathlib
import sys
from typing import Iterator, List, Tuple

import purvilgo


class Wrong(Exception):
    """Nothing was run, or the register is not kept: the text says why."""


def tell(text: str) -> None:
    print(text, file=sys.stderr)


def drop(path: str) -> None:
    """Removes a draft."""
    with contextlib.suppress(OSError):
        os.unlink(path + ".new")


def place(path: str) -> Tuple[int, int, str]:
    """Where a name leads: to a file, or, if there is none, to the folder in which it would be made, under this name."""
    folder, name = os.path.split(path)
    for there, name_there in ((path, ""), (folder or ".", name)):
        with contextlib.suppress(OSError):
            found = os.stat(there)
            return found.st_dev, found.st_ino, name_there
    return 0, 0, path


def is_used_twice(kept: str, files: List[str]) -> bool:
    """Whether what is read would be written over, or one file written twice: each FILE.ack, REGISTER, their drafts, the
    lock and each FILE are different ones, except that a draft may be one with what it is to replace, and two FILE may be
    one by a link."""
    apart = [{place(kept + ".lock")}, {place(kept), place(kept + ".new")}, {place(path) for path in files}]
    apart += [{place(path + ".ack"), place(path + ".ack.new")} for path in files]
    return sum(map(len, apart)) > len(set().union(*apart))


@contextlib.contextmanager
def locked(path: str) -> Iterator[None]:
    """Holds the lock of a register as `purvilgo run` does, by REGISTER.lock, an empty file that stays. It does not wait."""
    with contextlib.ExitStack() as held:
        try:
            lock = held.enter_context(open(path + ".lock", "ab"))
            fcntl.flock(lock, fcntl.LOCK_EX | fcntl.LOCK_NB)
        except BlockingIOError:
            raise Wrong(f"{path}: in use") from None
        except OSError:
            raise Wrong(f"{path}: cannot be locked") from None
        yield


def open_registry(path: str, begin: bool) -> purvilgo.Registry:
    """The registry of a register, or an empty one to `begin` it."""
    if begin and os.path.exists(path):
        raise Wrong(f"{path}: is there already")
    try:
        return purvilgo.Registry() if begin else purvilgo.Registry.open(pathlib.Path(path).read_bytes())
    except OSError:
        raise Wrong(f"{path}: cannot be read; --begin begins a register") from None
    except (purvilgo.RegisterError, MemoryError) as error:
        raise Wrong(f"{path}: {str(error) or 'memory was refused'}") from None


def run(registry: purvilgo.Registry, path: str, stamp: purvilgo.Stamp) -> bool:
    """Runs one file, and leaves its acknowledgement as a draft. Returns whether it was acknowledged, and is written. What
    was decided of a file that is stopped stays in the registry, as in that of `purvilgo run`."""
    try:
        answer = registry.run(pathlib.Path(path).read_bytes(), stamp)
    except OSError:
        tell(f"{path}: cannot be read")
        return False
    except purvilgo.StoppedError as stopped:
        answer = purvilgo.Acknowledgement(stopped.outcome, b"")
    sys.stdout.buffer.write(answer.outcome.line_for(path))
    if not answer:
        return False
    try:
        pathlib.Path(path + ".ack.new").write_bytes(answer.file)
    except OSError:
        tell(f"{path}.ack: not in place")
        return False
    return True


def keep(registry: purvilgo.Registry, path: str) -> None:
    """Keeps the register of a registry."""
    try:
        pathlib.Path(path + ".new").write_bytes(registry.register())
        os.replace(path + ".new", path)
    except (OSError, MemoryError):
        drop(path)
        raise Wrong(f"{path}: not kept") from None


def day(registry: purvilgo.Registry, kept: str, stamp: purvilgo.Stamp, files: List[str]) -> bool:
    """Runs all files, and keeps the register and then the acknowledgements. Returns whether all of it is in place."""
    written: List[str] = []
    try:
        for path in files:
            if run(registry, path, stamp):
                written.append(path)
        keep(registry, kept)
    except BaseException:
        for path in written:
            drop(path + ".ack")
        raise
    placed = len(written) == len(files)
    for path in written:
        try:
            os.replace(path + ".ack.new", path + ".ack")
        except OSError:
            tell(f"{path}.ack: not in place")
            placed = False
    return placed


def main(*words: str) -> int:
    begin = words[:1] == ("--begin",)
    if len(words) - begin < 6:
        tell("day.py [--begin] REGISTER SOCIETY NAME YYYYMMDD HHMMSS FILE..")
        return 2
    kept, society, name, date, time, *files = words[begin:]
    try:
        stamp = purvilgo.Stamp(int(society), name, datetime.datetime.strptime(date + time, "%Y%m%d%H%M%S"))
    except ValueError as error:
        tell(f"day.py: {error}")
        return 2
    kept = os.path.realpath(kept) if os.path.islink(kept) else kept
    if is_used_twice(kept, files):
        tell("file used twice")
        return 2
    try:
        with locked(kept), open_registry(kept, begin) as registry:
            return 0 if day(registry, kept, stamp, files) else 1
    except (Wrong, MemoryError) as wrong:
        tell(str(wrong) or "day.py: memory was refused")
        return 1


if __name__ == "__main__":
    sys.exit(main(*sys.argv[1:]))
