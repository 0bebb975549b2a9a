#!/usr/bin/env python3
"""Audits printed journals by a plain auditor, which keeps a journal alone and reads all else from there, and compares its line with what `sincronia audit` prints. The journals are drawn:
right ones, and the same with one or two places damaged. Rows that were worked by hand are compared with both, and each allocation of one of them is refused in turn.

Use: checks/plain_audit.py [JOURNALS]     The last line is 'N passed, M failed'; the exit code is 0 where none failed.
     checks/plain_audit.py --plain        compares the plain auditor with the worked rows alone; no built program is needed.
"""
import os
import random
import subprocess
import sys
import tempfile
from collections import namedtuple

sys.dont_write_bytecode = True
from audit_rows import ROWS, SERVED, TEXTS
from master_journal import Master
from plain_master import CUBE, SQUARE, TWO
from plain_plan import Kind, drawn, trace_text, weights_text, write
from program_runs import PROGRAM, build
from refused_memory import NO_MEMORY, make_library, refusing

# Printed journals. An entry has who asked, the words of the command and the words of the reply, in ids; an order has ids; a pull has a client, a line, an id, a version and a rank; a run has a
# length and flows.
Live = namedtuple("Live", "entries orders pulls runs")

WITH_ID = "register", "withdraw", "pull", "reweigh"
SAID = {"NothingLeft": "nothing"}  # a reply whose printed name is not its own in lower case


def spoken(reply):
    """The words of a reply of the master."""
    return (SAID.get(reply[0], reply[0].lower()), *reply[1:])


def live_text(live):
    lines = [("sincronia", "live", 1)]
    lines += [("entry", k, who, *command, *reply) for k, (who, command, reply) in enumerate(live.entries, 1)]
    lines += [("order", v, *ids) for v, ids in enumerate(live.orders, 1)]
    lines += [("pull", *pull) for pull in live.pulls]
    lines += [("run", length, *flows) for length, flows in live.runs]
    return "".join(" ".join(map(str, line)) + "\n" for line in [*lines, ("end",)])


# The plain auditor


def numbered(idents, command):
    """The command with the number of its coflow in place of the id."""
    word, *numbers = command
    return (word, idents.index(numbers[0]), *numbers[1:]) if word in WITH_ID else (word, *numbers)


def first_apart(one, other):
    """The place of the first difference of two lists, counted from 1, or None."""
    few = min(len(one), len(other))
    for k in range(few):
        if one[k] != other[k]:
            return k + 1
    return few + 1 if len(one) != len(other) else None


def order_of(master, idents, version):
    """The ids of the order of a version."""
    made = master.answered(len(master.journal), "Version")[version - 1]
    return [idents[place[0]] for place in master.places(made + 1)]


def slot_apart(stated, real):
    """The first slot in which two schedules differ, or one of them has ended; or None. Both are lists of stretches of equal slots."""
    slot, stated, real = 1, [list(run) for run in stated], [list(run) for run in real]
    while stated and real:
        if stated[0][1] != real[0][1]:
            return slot
        common = min(stated[0][0], real[0][0])
        slot += common
        for runs in stated, real:
            runs[0][0] -= common
            if runs[0][0] == 0:
                runs.pop(0)
    return slot if stated or real else None


def audited(ports, coflows, live):
    """The line of the verdict."""
    idents = [coflow.ident for coflow in coflows]
    for k, (_, command, _) in enumerate(live.entries, 1):
        if command[0] in WITH_ID and command[1] not in idents:
            return "no id %d" % k
    master = Master(ports, coflows, max(len(live.entries), 1))
    for k, (who, command, reply) in enumerate(live.entries, 1):
        if spoken(master.ask(who, numbered(idents, command))) != reply:
            return "no entry %d" % k
    n = len(live.entries)
    if master.run(n):
        return "no close %d" % master.run(n).first
    newest = master.version(n)
    orders = {version: order_of(master, idents, version) for version in range(1, newest + 1)}
    for version in range(1, max(newest, len(live.orders)) + 1):
        stated = list(live.orders[version - 1]) if version <= len(live.orders) else None
        real = orders.get(version)
        if stated != real:
            return "no order %d %d" % (version, 1 if stated is None or real is None else first_apart(stated, real))
    for client, line, ident, version, rank in live.pulls:
        order = orders.get(version, [])
        real = order.index(ident) + 1 if ident in order else 0
        if rank != real:
            return "no pull %d %d %d %d" % (client, line, rank, real)
    seen = {}
    for client, line, ident, version, _ in live.pulls:
        if version > newest or ident not in idents or version < seen.get(client, 0):
            return "no version %d %d" % (client, line)
        seen[client] = version
    slot = slot_apart(live.runs, master.schedule())
    if slot:
        return "no run %d" % slot
    return "yes entries %d versions %d slots %d" % (n, len(live.orders), sum(length for length, _ in live.runs))


def live_of(text):
    """The printed journal of a text without its first and its last line, with a `/` behind each line."""
    live = Live([], [], [], [])
    for kind, *words in (line.split() for line in text.split("/")[:-1]):
        numbers = [int(word) if word.isdigit() else word for word in words]
        if kind == "entry":
            size = {"publish": 1, "close": 1, "reweigh": 3}.get(words[2], 2)
            live.entries.append((numbers[1], tuple(numbers[2 : 2 + size]), tuple(numbers[2 + size :])))
        elif kind == "order":
            live.orders.append(numbers[1:])
        elif kind == "pull":
            live.pulls.append(tuple(numbers))
        else:
            live.runs.append((numbers[0], numbers[1:]))
    return live


# Drawn journals


def words(r, idents):
    """The words of a command."""
    word = r.choices(["register", "withdraw", "publish", "pull", "open", "close", "reweigh"], [3, 1, 2, 2, 4, 3, 1])[0]
    return (word, *{"publish": [], "close": [], "open": [r.choice([1, 2, 3, 2**64 - 1])], "reweigh": [r.choice(idents), r.randint(1, 4)]}.get(word, [r.choice(idents)]))


def played(r, ports, coflows, count):
    """A right journal of so many entries or a few more."""
    idents = [coflow.ident for coflow in coflows]
    master, entries = Master(ports, coflows, 4 * count + 4), []

    def ask(command):
        reply = spoken(master.reply(*numbered(idents, command)))
        if reply[0] not in ("noneopen", "stillopen", "late") or command[0] == "publish":
            who = 0 if command[0] in ("open", "close") else r.randint(1, 3)
            master.ask(who, numbered(idents, command))
            entries.append((who, command, reply))

    while len(entries) < count:
        ask(words(r, idents))
    ask(("close",))
    newest = master.version(len(entries))
    orders = [order_of(master, idents, version) for version in range(1, newest + 1)]
    pulls = []
    for client in range(1, 4):
        versions = sorted(r.randint(0, newest) for _ in range(r.randrange(4)))
        for line, version in zip(sorted(r.sample(range(1, 100), len(versions))), versions):
            ident, order = r.choice(idents), orders[version - 1] if version else []
            pulls.append((client, line, ident, version, order.index(ident) + 1 if ident in order else 0))
    return Live(entries, orders, pulls, [(length, list(flows)) for length, flows in master.schedule()])


def other(r, number, most):
    """Another number near, at least 0 and at most that."""
    return r.choice([n for n in {number - 2, number - 1, number + 1, number + 2, 0} if 0 <= n <= most and n != number])


def wrong_entry(r, live, idents):
    """An id that is no coflow's, another number in a reply, another caller, or fewer entries."""
    if not live.entries:
        return
    k = r.randrange(len(live.entries))
    who, command, reply = live.entries[k]
    kind = r.randrange(4)
    if kind == 0 and command[0] in WITH_ID:
        live.entries[k] = who, (command[0], max(idents) + 1, *command[2:]), reply
    elif kind == 1 and reply[1:]:
        place = r.randrange(1, len(reply))
        least = 1 if reply[0] == "weighed" else 0
        live.entries[k] = who, command, (*reply[:place], max(other(r, reply[place], 2**32 - 1), least), *reply[place + 1 :])
    elif kind == 2:
        swapped = {"joined": "already", "already": "joined", "left": "nothere"}.get(reply[0])
        live.entries[k] = r.randint(0, 64), command, (swapped,) if swapped else reply
    else:
        del live.entries[k:]


def wrong_order(r, live, idents):
    """Two ids exchanged, one that goes or comes, an order that goes or comes."""
    kind = r.randrange(4)
    if kind == 0 or not live.orders:
        live.orders.append(r.choice([[], idents[:1]]))
    elif kind == 1:
        live.orders.pop(r.randrange(len(live.orders)))
    else:
        order = live.orders[r.randrange(len(live.orders))]
        if kind == 2 and len(order) > 1:
            k = r.randrange(len(order) - 1)
            order[k], order[k + 1] = order[k + 1], order[k]
        elif order and r.randrange(2):
            order.pop()
        else:
            order.append(r.choice(idents))


def wrong_pull(r, live, idents):
    """Another rank, version, id or client of a pull."""
    if not live.pulls:
        return
    k = r.randrange(len(live.pulls))
    client, line, ident, version, rank = live.pulls[k]
    kind = r.randrange(4)
    if kind == 0:
        live.pulls[k] = client, line, ident, version, other(r, rank, 2**32 - 1)
    elif kind == 1:
        live.pulls[k] = client, line, max(idents) + 1, version, r.choice([rank, 0])
    elif kind == 2:
        live.pulls[k] = client, line, ident, len(live.orders) + 1, r.choice([rank, 0])
    else:  # a version of an earlier time, with its own rank
        early = r.randint(0, version)
        order = live.orders[early - 1] if early else []
        live.pulls[k] = client, line, ident, early, order.index(ident) + 1 if ident in order else 0


def wrong_run(r, live, idents):
    """Another length or other flows, or a run that goes or comes."""
    kind = r.randrange(4)
    if kind == 0 or not live.runs:
        live.runs.append((r.randint(1, 3), [] if not live.runs or live.runs[-1][1] else [0]))
    elif kind == 1:
        live.runs.pop()
    else:
        k = r.randrange(len(live.runs))
        length, flows = live.runs[k]
        live.runs[k] = (max(1, length + r.choice([-1, 1])), flows) if kind == 2 else (length, sorted({*flows, r.randrange(4)} if r.randrange(2) else flows[1:]))
    joined = []
    for length, flows in live.runs:
        if joined and joined[-1][1] == flows:
            joined[-1] = joined[-1][0] + length, flows
        else:
            joined.append((length, flows))
    live.runs[:] = joined


DRAWN = [
    Kind(2, 3, 2, 2, 1, 3, 1),  # few units, and many ties
    Kind(4, 6, 3, 9, 1000, 9, 1),  # sizes that are rounded up
    Kind(3, 5, 2, 2**12, 10**6, 2**32, 1),  # great sizes and weights
]

REASONS = {"no id", "no entry", "no close", "no order", "no pull", "no version", "no run", "yes entries"}


def journal(seed):
    """The ports, the coflows and a drawn journal. Of three, one is right, one has a wrong place, and one has two."""
    r = random.Random(seed)
    ports, coflows = (SQUARE, CUBE)[seed % 2] if seed % 5 < 2 else drawn(DRAWN[seed % len(DRAWN)], r)[:2]
    live = played(r, ports, coflows, r.choice([0, 3, 12, 40]))
    for _ in range(seed // 5 % 3):
        r.choices([wrong_entry, wrong_order, wrong_pull, wrong_run], [6, 3, 4, 3])[0](r, live, [coflow.ident for coflow in coflows])
    return ports, coflows, live


# The comparison


FILES = ["trace", "weights", "journal"]
WORDS = ["audit", "trace", "journal", "--weights", "weights"]


def put(folder, ports, coflows, live):
    """Writes the files of a journal."""
    for name, text in zip(FILES, (trace_text(ports, coflows), weights_text(coflows), live_text(live))):
        write(folder, name, text)


def printed(folder, ports, coflows, live):
    """The line that the built program prints."""
    put(folder, ports, coflows, live)
    ended = subprocess.run([PROGRAM, *WORDS], cwd=folder, stdin=subprocess.DEVNULL, capture_output=True, timeout=60)
    out = ended.stdout.decode()
    code = 0 if out.startswith("yes") else 1
    return out[:-1] if ended.returncode == code and out.endswith("\n") else "exit code %d, %r and %r" % (ended.returncode, out, ended.stderr)


def refused(folder):
    """How the audit of the last journal ends where an allocation is refused, each alone, and how many there are: with what it prints, or with an error."""
    ends = set()
    for number in range(1, 10**4):
        (code, out, err), count = refusing(folder, PROGRAM, WORDS, number, number)
        if count == 0:
            return ends, number
        ends.add(out.decode() if code == 0 else "error" if (code, out, err) == NO_MEMORY else "exit code %d, %r and %r" % (code, out, err))
    return ends, 0


def results(folder, count, plain):
    """What is compared, the line of the plain auditor, and the one that it should be."""
    for edit, line in ROWS:
        live = live_of(SERVED.replace(*edit) if edit else SERVED)
        yield "row %s" % (edit,), audited(*TWO, live), line
        if not plain:
            yield "row %s, printed" % (edit,), printed(folder, *TWO, live), line
    for weights, text, line in TEXTS:
        ports, coflows = TWO
        weighed, live = [coflow._replace(weight=weight) for coflow, weight in zip(coflows, weights)], live_of(text)
        yield "text %s" % text, audited(ports, weighed, live), line
        if not plain:
            yield "text %s, printed" % text, printed(folder, ports, weighed, live), line
    if not plain:
        put(folder, *TWO, live_of(SERVED))
        ends, number = refused(folder)
        yield "refused allocations", (ends <= {"error", ROWS[0][1] + "\n"}, "error" in ends, number > 20), (True, True, True)
    met = set()
    for seed in range(0 if plain else count):
        ports, coflows, live = journal(seed)
        line = audited(ports, coflows, live)
        met.add(" ".join(line.split()[:2]))
        yield "journal %d" % seed, printed(folder, ports, coflows, live), line
    if not plain:
        yield "reasons that are met", met, REASONS


def main():
    plain = "--plain" in sys.argv
    count = int(sys.argv[1]) if len(sys.argv) > 1 and not plain else 900
    passed = failed = 0
    if not plain and not build():
        print("the program could not be built\n0 passed, 1 failed")
        return 1
    with tempfile.TemporaryDirectory() as folder:
        if not plain:
            make_library(folder)
        for name, have, want in results(folder, count, plain):
            if have != want:
                print("%s: %s and not %s" % (name, have, want))
            passed, failed = passed + (have == want), failed + (have != want)
    print("%d passed, %d failed" % (passed, failed))
    return 1 if failed else 0


if __name__ == "__main__":
    sys.exit(main())
