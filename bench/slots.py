#!/usr/bin/env python3
"""Times the runs of a crew, whose agents live through all of them: runs of one slot in a hall, each of which grants every port. It is a benchmark and no test.

Use: bench/slots.py [RUNS]        RUNS are made one after the other, 2000 where none are said.

First by 1, 2 and 4 agents on wires that only count, where 16 and 150 ports are granted. Then by 1 and 4 agents, a tenth as many runs, where 16 ports are granted and each wire waits 200 microseconds
with a send; the ratio to one agent stands beside.

Each row is the least time of five: of the runs alone, without what comes before and behind. All of a table's numbers of agents run in turn.
"""
import os
import subprocess
import sys
import tempfile

sys.dont_write_bytecode = True  # the folder stays as it is
TOP = os.path.dirname(os.path.dirname(os.path.abspath(__file__)))
PROGRAM = os.path.join(TOP, "crates", "run_bench", "out", "run_bench")
TIMES = 5
AGENTS = (1, 2, 4)
PORTS = (16, 150)
WAIT_AGENTS = (1, 4)
WAIT_PORTS = 16
WAIT = 200  # microseconds


def build():
    """Proves and builds the program, where there is none or a source is newer."""
    subprocess.run([os.path.join(TOP, "checks", "build"), os.path.basename(PROGRAM)], check=True)


def trace(ports, runs):
    """Each port sends to itself alone, and no flow ends before the last run, so that each run grants every port."""
    lines = ["%d %d" % (ports - 1, ports)] + ["%d 0 1 %d 1 %d:%d" % (port + 1, port, port, runs + 1) for port in range(ports)]
    return "\n".join(lines) + "\n"


def nanoseconds(folder, agents, runs, wait):
    words = [PROGRAM, "trace", str(agents), str(runs), "time", str(wait)]
    ended = subprocess.run(words, cwd=folder, stdout=subprocess.PIPE, check=True)
    return int(ended.stdout.split()[1])


def least_times(ports, runs, agents, wait):
    """The least nanoseconds of the runs, for each of these numbers of agents."""
    with tempfile.TemporaryDirectory() as folder:
        with open(os.path.join(folder, "trace"), "w", encoding="ascii") as out:
            out.write(trace(ports, runs))
        times = [[nanoseconds(folder, count, runs, wait) for count in agents] for _ in range(TIMES)]
    return [min(column) for column in zip(*times)]


def counting(runs):
    """The table of wires that only count."""
    print("| ports | agents | microseconds a run | runs a second |\n|---|---|---|---|")
    for ports in PORTS:
        for agents, least in zip(AGENTS, least_times(ports, runs, AGENTS, 0)):
            print("| %d | %d | %.1f | %d |" % (ports, agents, least / runs / 1000, runs * 10**9 // least), flush=True)


def waiting(runs):
    """The table of wires that wait with each send."""
    print("\n%d ports on wires that wait %d microseconds with a send:" % (WAIT_PORTS, WAIT))
    print("| ports | agents | microseconds a run | ratio to one agent |\n|---|---|---|---|")
    times = least_times(WAIT_PORTS, runs, WAIT_AGENTS, WAIT)
    for agents, least in zip(WAIT_AGENTS, times):
        print("| %d | %d | %.1f | %.2f |" % (WAIT_PORTS, agents, least / runs / 1000, least / times[0]), flush=True)


def main():
    runs = int(sys.argv[1]) if len(sys.argv) > 1 else 2000
    build()
    counting(runs)
    waiting(max(1, runs // 10))


if __name__ == "__main__":
    main()
