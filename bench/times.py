#!/usr/bin/env python3
"""Times a program's check of files, the least of twenty rounds each: times.py PROGRAM FOLDER NAME.."""
import os
import subprocess
import sys
import time

program, folder, *names = sys.argv[1:]
print("%-10s %10s %9s %11s %10s %12s" % ("input", "bytes", "records", "check, us", "ns a byte", "ns a record"))
for name in names:
    path = os.path.join(folder, name)
    least = None
    for _ in range(20):
        start = time.perf_counter()
        subprocess.run([program, "check", path], stdout=subprocess.DEVNULL)
        taken = time.perf_counter() - start
        least = taken if least is None else min(least, taken)
    with open(path, "rb") as file:
        text = file.read()
    size, records = len(text), text.count(b"\n")
    print("%-10s %10d %9d %11d %10.2f %12.0f" % (name, size, records, least * 1e6, least * 1e9 / size, least * 1e9 / records))
