#!/usr/bin/env python3
"""Times eight callers, each on a thread, who ask drawn commands of a hall, beside the same callers with a mutex round the same master. It is a benchmark and no test.

Use: bench/halls.py [COMMANDS]        COMMANDS are those of each caller, 12500 where none is said.

Both run in turn, and each row is the least time of five runs: of the threads from their start to their end, without what comes before and behind.
"""
import os
import random
import subprocess
import sys
import tempfile

sys.dont_write_bytecode = True  # the folder stays as it is
TOP = os.path.dirname(os.path.dirname(os.path.abspath(__file__)))
sys.path.insert(0, os.path.join(TOP, "checks"))

from plain_hall import CALLERS, PROGRAM, build, great  # noqa: E402
from plain_plan import trace_text, write  # noqa: E402

RUNS = 5
SEED = 20


def nanoseconds(folder, count, way):
    ended = subprocess.run([PROGRAM, "trace", str(SEED), str(count), way], cwd=folder, stdout=subprocess.PIPE, check=True)
    return int(ended.stdout.split()[1])


def main():
    count = int(sys.argv[1]) if len(sys.argv) > 1 else 12500
    build()
    with tempfile.TemporaryDirectory() as folder:
        write(folder, "trace", trace_text(*great(random.Random(SEED))))
        times = [[nanoseconds(folder, count, way) for way in ("time", "mutex")] for _ in range(RUNS)]
    print("| callers | commands | ms | commands a second |\n|---|---|---|---|")
    for name, column in zip(("a hall", "a mutex round the master"), zip(*times)):
        least = min(column)
        print("| %s | %d | %.0f | %d |" % (name, CALLERS * count, least / 10**6, CALLERS * count * 10**9 // least))


if __name__ == "__main__":
    main()
