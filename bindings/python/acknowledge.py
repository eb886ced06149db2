#!/usr/bin/env python3
"""Acknowledges files, each into an empty registry: writes FILE.ack, and prints how that ended.

    acknowledge.py SOCIETY NAME YYYYMMDD HHMMSS FILE..

The status is 0 if all files were acknowledged, else 1.
"""

import datetime
import pathlib
import sys

import purvilgo


def main(society: str, name: str, date: str, time: str, *files: str) -> int:
    stamp = purvilgo.Stamp(int(society), name, datetime.datetime.strptime(date + time, "%Y%m%d%H%M%S"))
    worst = 0
    for path in files:
        told = purvilgo.acknowledge(pathlib.Path(path).read_bytes(), stamp)
        sys.stdout.buffer.write(told.outcome.line_for(path))
        if told.outcome:
            pathlib.Path(path + ".ack").write_bytes(told.file)
        else:
            worst = 1
    return worst


if __name__ == "__main__":
    sys.exit(main(*sys.argv[1:]))
