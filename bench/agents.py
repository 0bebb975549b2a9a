#!/usr/bin/env python3
"""Times `plan` and `live` by one agent and by the default number of agents. It is a benchmark and no test.

Use: bench/agents.py [--peer 'PROGRAM WORD ..'] [plain | two | busy]

It times `plan` of the shapes fb-16, fb and staircase of bench/run.py, and `live --run 3` of two coflows of which one has 524289 units on one port, output to /dev/null: by one agent, by the default, and
`plan` by the peer too, where one is named. All run in turn, by the clock, and a figure is the least of three. The texts of both numbers of agents are compared once.

This is done three times: as it is (plain), on two processors (two), and beside eight loops that only count (busy). A word chooses one of them. Each prints one table in Markdown.

The exit code is 1 where the default takes more than its bound times what one agent takes: for `plan` 1.15 as it is, 1.3 on two processors and 1.5 beside eight loops, and for `live` 2; or where two
texts differ.
"""
import contextlib
import filecmp
import os
import shlex
import subprocess
import sys
import tempfile
import time

sys.dont_write_bytecode = True  # the folder stays as it is

import run as shapes  # noqa: E402
from run import PROGRAM, build, put  # noqa: E402

RUNS = 3
LOOPS = 8
PLANS = ["fb-16", "fb", "staircase"]
LIVE_BOUND = 2

# Two coflows, the greater of 524289 units from port 0 to itself, the other of one unit from port 1 to itself; both join, and then runs are made until nothing is left.
LIVE_TRACE = b"2 2\n1 0 1 0 1 0:524289\n2 0 1 1 1 1:1\n"
LIVE_SCRIPT = b"1 register 1\n1 register 2\n"

ONE, DEFAULT, PEER = "one agent", "default", "peer"

# word: what stands before the table, the bound of `plan`, and the words before each program
PLACES = {
    "plain": ("As it is", 1.15, []),
    "two": ("On two processors", 1.3, ["taskset", "-c", "0,1"]),
    "busy": ("Beside %d busy loops" % LOOPS, 1.5, []),
}


@contextlib.contextmanager
def busy(count):
    """So many loops run meanwhile, and are ended in any case."""
    loops = []
    try:
        for _ in range(count):
            loops.append(subprocess.Popen([sys.executable, "-c", "while True: pass"]))
        yield
    finally:
        for loop in loops:
            loop.kill()
        for loop in loops:
            loop.wait()


def rows(folder):
    """Each row of a table: its name, and the words behind the program."""
    for name in PLANS:
        make, options = shapes.SHAPES[name]
        put(folder, name, make)
        yield "plan", name, ["plan", name, *options]
    put(folder, "two-coflows", lambda: LIVE_TRACE)
    put(folder, "script", lambda: LIVE_SCRIPT)
    yield "live", "two coflows, `--run 3`", ["live", "two-coflows", "script", "--run", "3"]


def seconds(command, folder):
    """By the clock, from start to end, output to /dev/null."""
    start = time.monotonic()
    subprocess.run(command, cwd=folder, stdin=subprocess.DEVNULL, stdout=subprocess.DEVNULL, check=True)
    return time.monotonic() - start


def same_text(commands, folder):
    """Whether one agent and the default write the same text."""
    for who in (ONE, DEFAULT):
        with open(os.path.join(folder, who), "wb") as out:
            subprocess.run(commands[who], cwd=folder, stdin=subprocess.DEVNULL, stdout=out, check=True)
    return filecmp.cmp(os.path.join(folder, ONE), os.path.join(folder, DEFAULT), shallow=False)


def least_seconds(commands, folder):
    """The least seconds of each command, all of them in turn."""
    least = {}
    for _ in range(RUNS):
        for who, command in commands.items():
            least[who] = min(least.get(who, float("inf")), seconds(command, folder))
    return least


def table(word, peer, made, folder):
    """Prints the table of this place, and answers how many of its ratios are above their bounds."""
    title, plan_bound, before = PLACES[word]
    print("\n%s:\n" % title)
    print("| command | trace | one agent | default | ratio | bound | peer | one agent / peer |\n|---|---|---|---|---|---|---|---|")
    over = 0
    for kind, name, words in made:
        commands = {ONE: [*before, PROGRAM, *words, "--agents", "1"], DEFAULT: [*before, PROGRAM, *words]}
        if peer and kind == "plan":
            commands[PEER] = [*before, *peer, *words]
        least = least_seconds(commands, folder)
        ratio, bound = least[DEFAULT] / least[ONE], plan_bound if kind == "plan" else LIVE_BOUND
        beside = "%.3f s | %.2f" % (least[PEER], least[ONE] / least[PEER]) if PEER in least else " | "
        print("| `%s` | %s | %.3f s | %.3f s | %.2f | %s | %s |" % (kind, name, least[ONE], least[DEFAULT], ratio, bound, beside), flush=True)
        over += ratio > bound
    return over


def differing(made, folder):
    """How many of the rows have two texts."""
    count = 0
    for kind, name, words in made:
        commands = {ONE: [PROGRAM, *words, "--agents", "1"], DEFAULT: [PROGRAM, *words]}
        if not same_text(commands, folder):
            print("%s %s: the texts of one agent and of the default differ" % (kind, name), flush=True)
            count += 1
    return count


def main():
    words, peer = sys.argv[1:], None
    if words[:1] == ["--peer"]:
        if len(words) < 2:
            sys.exit(__doc__)
        peer, words = shlex.split(words[1]), words[2:]
    if len(words) > 1 or any(word not in PLACES for word in words):
        sys.exit(__doc__)
    build(PROGRAM)
    with tempfile.TemporaryDirectory() as folder:
        made = list(rows(folder))
        faults = differing(made, folder)
        for word in words or PLACES:
            with busy(LOOPS if word == "busy" else 0):
                faults += table(word, peer, made, folder)
    return 1 if faults else 0


if __name__ == "__main__":
    sys.exit(main())
