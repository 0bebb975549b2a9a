#!/usr/bin/env python3
"""Times the audit of a right printed journal that a plain master makes: the whole program, from its start to its end. It is a benchmark and no test.

Use: bench/audits.py [ENTRIES]        1000000 where none are said.

The row is the least time of five runs.
"""
import os
import random
import subprocess
import sys
import tempfile
import time

sys.dont_write_bytecode = True  # the folder stays as it is
TOP = os.path.dirname(os.path.dirname(os.path.abspath(__file__)))
sys.path.insert(0, os.path.join(TOP, "checks"))

from plain_audit import FILES, PROGRAM, WORDS, Live, build, numbered, put, spoken  # noqa: E402
from plain_hall import Stepped  # noqa: E402
from plain_plan import Coflow  # noqa: E402

RUNS = 5
SEED = 19
COFLOWS = 12
PORTS = 8
UNITS = 10**6
CLIENTS = 8

KINDS = ["pull", "open", "register", "reweigh", "publish"]
SHARES = [500, 150, 10, 30, 4]  # by kind; each run that is opened is closed


def coflows_of(r):
    """Coflows of up to four flows."""
    return [Coflow(ident + 1, r.sample(range(PORTS), 2), [(end, UNITS * 10**6) for end in r.sample(range(PORTS), 2)], 1) for ident in range(COFLOWS)]


def journal(r, coflows, count):
    """A right journal of so many entries or one more."""
    idents = [coflow.ident for coflow in coflows]
    master = Stepped(PORTS, coflows, 2 * count + 2)
    entries, orders, ranks, stretches = [], [], [], []

    def ask(*command):
        who = 0 if command[0] in ("open", "close") else r.randint(1, CLIENTS)
        reply = spoken(master.ask(who, numbered(idents, command)))
        entries.append((who, command, reply))
        if reply[0] == "version":
            orders.append([idents[coflow] for coflow in master.order])
            ranks.append({ident: place for place, ident in enumerate(orders[-1], 1)})
        return reply

    for ident in idents:
        ask("register", ident)
    while len(entries) < count:
        kind = r.choices(KINDS, SHARES)[0]
        if kind != "open":
            ask(kind, *{"publish": [], "reweigh": [r.choice(idents), r.randint(1, 9)]}.get(kind, [r.choice(idents)]))
        elif ask("open", 1)[0] == "opened":
            flows = sorted(master.open_run.granted.values())
            if stretches and stretches[-1][1] == flows:
                stretches[-1] = stretches[-1][0] + 1, flows
            else:
                stretches.append((1, flows))
            ask("close")
    pulls = []
    for client in range(1, CLIENTS + 1):
        versions = sorted(r.randint(0, len(orders)) for _ in range(count // 100))
        for line, version in enumerate(versions):
            ident = r.choice(idents)
            pulls.append((client, CLIENTS * line + client, ident, version, ranks[version - 1].get(ident, 0) if version else 0))
    return Live(entries, orders, pulls, stretches)


def main():
    count = int(sys.argv[1]) if len(sys.argv) > 1 else 10**6
    r = random.Random(SEED)
    coflows = coflows_of(r)
    live = journal(r, coflows, count)
    if not build():
        sys.exit("the program could not be built")
    times = []
    with tempfile.TemporaryDirectory() as folder:
        put(folder, PORTS, coflows, live)
        size = os.path.getsize(os.path.join(folder, FILES[2]))
        for _ in range(RUNS):
            begun = time.monotonic()
            ended = subprocess.run([PROGRAM, *WORDS], cwd=folder, stdout=subprocess.PIPE, check=True)
            times.append(time.monotonic() - begun)
            if not ended.stdout.startswith(b"yes entries %d " % len(live.entries)):
                sys.exit("the verdict is %r" % ended.stdout)
    print("| entries | versions | pulls | runs | bytes | seconds |\n|---|---|---|---|---|---|")
    print("| %d | %d | %d | %d | %d | %.2f |" % (len(live.entries), len(live.orders), len(live.pulls), len(live.runs), size, min(times)))


if __name__ == "__main__":
    main()
