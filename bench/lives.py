#!/usr/bin/env python3
"""Times `live` of the greatest script over a trace of the repository, by 1, 4 and 16 clients: the whole program, from its start to its end. It is a benchmark and no test.

Use: bench/lives.py [TRACE]        traces/shuffle-24x40.txt where none is said.

A script has 65536 lines: each coflow is registered, and then clients pull ranks, give weights and publish by turns, in rounds of 512 lines, each beside a run of slots. A row is the least time of
three runs, and how many commands that is in a second. The text of the last run is audited.
"""
import os
import random
import subprocess
import sys
import tempfile
import time

sys.dont_write_bytecode = True  # the folder stays as it is
TOP = os.path.dirname(os.path.dirname(os.path.abspath(__file__)))
sys.path.insert(0, os.path.join(TOP, "checks"))

from program_runs import PROGRAM, build  # noqa: E402

RUNS = 3
LINES = 2**16
ROUND = 512
SEED = 41


def script(idents, clients):
    """The script, as a text."""
    r = random.Random(SEED)
    lines = ["%d register %d" % (k % clients + 1, ident) for k, ident in enumerate(idents)] + ["wait"]
    while len(lines) < LINES:
        client = len(lines) % clients + 1
        kind = r.choices(["pull", "reweigh", "publish"], [900, 90, 2])[0]
        words = {"publish": "", "pull": " %d" % r.choice(idents)}.get(kind, " %d %d" % (r.choice(idents), r.randint(1, 9)))
        lines.append("slot" if len(lines) % ROUND == 0 else "%d %s%s" % (client, kind, words))
    return "\n".join(lines) + "\n"


def main():
    trace = os.path.abspath(sys.argv[1] if len(sys.argv) > 1 else os.path.join(TOP, "traces", "shuffle-24x40.txt"))
    if not build():
        return 1
    with open(trace, encoding="ascii") as file:
        idents = [line.split()[0] for line in file.read().split("\n")[1:] if line.split()]
    idents = [int(ident) for ident in idents]
    with tempfile.TemporaryDirectory() as folder:
        for clients in (1, 4, 16):
            with open(os.path.join(folder, "s"), "w", encoding="ascii") as file:
                file.write(script(idents, clients))
            least = None
            for _ in range(RUNS):
                with open(os.path.join(folder, "journal"), "wb") as out:
                    start = time.monotonic()
                    subprocess.run([PROGRAM, "live", trace, "s"], cwd=folder, stdin=subprocess.DEVNULL, stdout=out, check=True)
                    took = time.monotonic() - start
                least = took if least is None else min(least, took)
            ran = subprocess.run([PROGRAM, "audit", trace, "journal"], cwd=folder, stdin=subprocess.DEVNULL, capture_output=True, text=True, check=False)
            print("%d clients: %.2f s, %d commands a second; %s" % (clients, least, LINES / least, ran.stdout.strip()), flush=True)
    return 0


if __name__ == "__main__":
    sys.exit(main())
