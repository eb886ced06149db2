"""Runs a program and measures it: its time, and the greatest memory of its own."""
import collections
import os
import subprocess
import sys

# The status of a run, what it printed on standard output and standard error, its seconds, and its greatest memory in
# bytes.
Run = collections.namedtuple("Run", "status printed complained seconds memory")

# A process begins with the greatest memory of the one that starts it, and keeps it when it becomes another program. So a
# small process of its own starts the program and waits for it; below that one's memory, some five megabytes, nothing can
# be told of the program's.
LAUNCHER = """
import os, sys, time
start = time.perf_counter()
child = os.fork()
if child == 0:
    os.execv(sys.argv[2], sys.argv[2:])
_, ended, used = os.wait4(child, 0)
told = "%f %d %d" % (time.perf_counter() - start, used.ru_maxrss, os.waitstatus_to_exitcode(ended))
os.write(int(sys.argv[1]), told.encode())
"""


def measured(words, folder, given=b""):
    """Runs a program, the first of the words by its path, in a folder, with this on its standard input."""
    told, telling = os.pipe()
    launched = [sys.executable, "-S", "-E", "-c", LAUNCHER, str(telling), *words]
    run = subprocess.run(launched, cwd=folder, input=given, capture_output=True, pass_fds=[telling], timeout=600)
    os.close(telling)
    seconds, kilobytes, status = os.read(told, 100).split()
    os.close(told)
    return Run(int(status), run.stdout, run.stderr, float(seconds), int(kilobytes) * 1024)
