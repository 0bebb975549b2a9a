#!/usr/bin/env python3
"""Asks drawn lists of commands of a plain master, which keeps its journal alone and reads the rest from there, and compares each reply, and what is told, with what the program
`master_runs` prints. Rows that were worked by hand are compared with both, and each allocation of these is refused in turn.

Use: checks/plain_master.py     The last line is 'N passed, M failed'; the exit code is 0 where none failed.
"""
import itertools
import os
import random
import re
import subprocess
import sys
import tempfile

sys.dont_write_bytecode = True
from master_journal import LAST_SLOT, Master, named, stretches
from plain_plan import Coflow, Kind, drawn, trace_text, write
from refused_memory import make_library, refusing

TOP = os.path.dirname(os.path.dirname(os.path.abspath(__file__)))
PROGRAM = os.path.join(TOP, "crates", "master_runs", "out", "master_runs")


# The built program


def written(line):
    """A line of a list: its words and numbers."""
    return " ".join(map(str, line))


def build():
    """Proves and builds the program, where there is none or a source is newer. Where that fails the script ends, and leaves no program of an earlier tree."""
    built = subprocess.run([os.path.join(TOP, "checks", "build"), os.path.basename(PROGRAM)], check=False)
    if built.returncode:
        print("the program could not be built\n0 passed, 1 failed")
        sys.exit(1)


def ran(folder, ports, coflows, lines):
    """What the program prints of a trace and a list, by lines, and its exit code where that is not 0."""
    write(folder, "trace", trace_text(ports, coflows))
    write(folder, "list", "".join(line + "\n" for line in lines))
    ended = subprocess.run([PROGRAM, "trace", "list"], cwd=folder, stdin=subprocess.DEVNULL, capture_output=True, timeout=60)
    code = ["exit code %d" % ended.returncode] if ended.returncode else []
    return [*ended.stdout.decode().splitlines(), *ended.stderr.decode().splitlines(), *code]


def first_difference(have, want):
    """What is wrong with lines that were printed, or None."""
    for k, (one, other) in enumerate(zip(have + [None], want + [None])):
        if one != other:
            return "line %d is %r and not %r" % (k + 1, one, other)
    return None


# What the program ends with where there was no memory: no words, file, trace or table, or that itself
NO_MEMORY = re.compile(rb"master_runs: (usage: master_runs TRACE LIST|the file is not read|no memory)\n")


def fault_of_refusals(folder, said, answer=None):
    """What is wrong where an allocation is refused, each alone, or None: the files of the last run are played to their end, or up to the end of no memory or to an answer that tells it, where there
    is one."""
    for number in itertools.count(1):
        (code, out, err), refused = refusing(folder, PROGRAM, ["trace", "list"], number, number)
        if refused == 0:
            return None if number > 20 else "%d allocations are counted" % (number - 1)
        lines = out.decode().splitlines()
        same = next((k for k, pair in enumerate(zip(lines, said)) if pair[0] != pair[1]), min(len(lines), len(said)))
        over = code == 0 and err == b"" and lines == said
        answered = code == 0 and same < len(lines) and lines[same] == answer
        if not (over or answered or code == 1 and same == len(lines) and NO_MEMORY.fullmatch(err)):
            return "where allocation %d is refused, the code is %d, line %d is another one, and the error is %r" % (number, code, same + 1, err)


# Rows that were worked by hand, over a coflow of 3 units and one of 1 unit, both from port 0 to port 1, of weight 1

TWO = 3, [Coflow(1, [0], [(1, 3 * 10**6)], 1), Coflow(2, [0], [(1, 10**6)], 1)]

# name, limit, commands and replies, some of the lines that are told behind the last reply, and how many entries the journal has
ROWS = [
    ("ranks are kept by those who left", 100,
     "register 0 = Joined; pull 0 = Unranked(0); publish = Version(1); pull 0 = Rank(1, 1); withdraw 0 = Left; pull 0 = Rank(1, 1); register 0 = Already; withdraw 0 = NotHere", [], 8),
    ("a full journal refuses", 3,
     "register 0 = Joined; register 1 = Joined; publish = Version(1); pull 0 = Full(3)",
     ["version 1", "ranks [2, 1]", "coflow 0 rank 2 weight 1", "entry 8 Publish Version(1)"], 3),
    ("runs have notes", 100,
     "close = NoneOpen; short 0 1 = NotGranted(0); register 0 = Joined; open 2 = Opened(1, 2, 1); open 1 = StillOpen(1); publish = StillOpen(1); short 1 0 = NotGranted(1); short 0 1 = Noted(1); "
     "close = Closed(1); open 9 = Opened(3, 2, 1); close = Closed(3); open 1 = NothingLeft", ["closed 1 2", "credit 0 0 1", "closed 3 2", "credit 0 0 2"], 12),
    ("the last slot is served", 100,
     "skip 2199023255552 = Late(2199023255552); skip 2199023255551 = Skipped(2199023255551); register 0 = Joined; skip 5 = StillOwed(0); open 4 = Opened(2199023255551, 1, 1); "
     "close = Closed(2199023255551); open 1 = Late(2199023255552)", [], 7),
    ("weights count from the next publishing on", 100,
     "register 0 = Joined; register 1 = Joined; publish = Version(1); reweigh 0 5 = Weighed(1); pull 0 = Rank(1, 2); publish = Version(2); pull 0 = Rank(2, 1); withdraw 1 = Left; "
     "reweigh 1 2 = NotHere", [], 9),
    ("an open run is told", 100,
     "register 0 = Joined; open 5 = Opened(1, 3, 1)",
     ["ingress 0 granted Some(0) noted None", "ingress 1 granted None noted None", "next 1 open Some(3)"], 2),
    ("an open run is closed where the journal is full", 2,
     "register 0 = Joined; open 5 = Opened(1, 3, 1); pull 0 = Full(2); short 0 7 = Noted(3); short 0 2 = Noted(2); close = Closed(1); close = NoneOpen; close = Full(6); pull 0 = Full(6)",
     ["ingress 0 granted None noted None", "next 4 open None", "flow 0 owes 1"], 6),
    ("commands that are out of range are told so", 100,
     "register 2 = out of range; withdraw 2 = out of range; pull 2 = out of range; open 0 = out of range; short 3 1 = out of range; reweigh 2 1 = out of range; reweigh 0 0 = out of range; "
     "reweigh 0 4294967297 = out of range; reweigh 0 4294967296 = NotHere", [], 1),
]


def row_of(text):
    """The commands or steps of a row, and their answers."""
    return zip(*(pair.split(" = ") for pair in text.split("; ")))


def fault_of_row(folder, limit, text, told, count):
    """What is wrong with a row, or None. The first caller is 7, and the others are 8."""
    commands, replies = row_of(text)
    asked = ["%d %s" % (8 if k else 7, command) for k, command in enumerate(commands)]
    lines, said, master = game(*TWO, limit, [line.split() for line in asked])
    if said[: len(replies)] != list(replies):
        return "the plain master says %s" % said[: len(replies)]
    if not set(told) <= set(said) or sum(line.startswith("entry") for line in said) != count:
        return "the plain master tells %s" % said[len(replies):]
    have = ran(folder, *TWO, lines)
    return first_difference(have, said) or fault_of_schedule(have, master) or fault_of_refusals(folder, said)


# Schedules


def schedule_told(lines):
    """The schedule that printed closed runs are, in stretches of equal slots: a flow stands in as many slots of a run as the run credits units to it, from its first slot on. It ends before the
    next slot."""
    first, next_slot, credits = 1, 1, []
    for word, *rest in map(str.split, lines):
        if word == "closed":
            first = int(rest[0])
        elif word == "credit":
            flow, _, units = map(int, rest)
            credits.append((first, first + units, flow))
        elif word == "next":
            next_slot = int(rest[0])
    marks = sorted({1, next_slot, *(start for start, _, _ in credits), *(end for _, end, _ in credits)})
    return stretches((high - low, sorted(flow for start, end, flow in credits if start <= low < end)) for low, high in zip(marks, marks[1:]))


def fault_of_schedule(lines, master):
    """What is wrong with the schedule that printed closed runs are, or None: it is that of the plain master, slot by slot; runs ascend, no port carries two units in a slot, and a flow stands in it
    once for each unit that it owes no more."""
    if schedule_told(lines) != master.schedule():
        return "the slots are %s and not %s" % (schedule_told(lines), master.schedule())
    flows = master.flows
    sent, owes, end, slots, busy = [0] * len(flows), [0] * len(flows), 0, 0, set()
    for word, *rest in (line.split() for line in lines):
        if word == "closed":
            first, slots, busy = int(rest[0]), int(rest[1]), set()
            if first <= end:
                return "a run begins in slot %d, and slot %d is of the run before" % (first, end)
            end = first + slots - 1
        elif word == "credit":
            flow, port, units = map(int, rest)
            used = {("ingress", flows[flow].ingress), ("egress", flows[flow].egress)}
            if port != flows[flow].ingress or units > slots or used & busy:
                return "flow %d is credited %d units at ingress %d" % (flow, units, port)
            busy, sent[flow] = busy | used, sent[flow] + units
        elif word == "flow":
            owes[int(rest[0])] = int(rest[2])
    wrong = [f for f, flow in enumerate(flows) if sent[f] + owes[f] != flow.units]
    return "flow %d is in %d slots and owes %d units" % (wrong[0], sent[wrong[0]], owes[wrong[0]]) if wrong else None


# Drawn lists

# Three coflows on two ports of each side, and four coflows on three, each from two ports to two ports
SQUARE = 2, [Coflow(ident, [start, 1], [(end, units * 10**6), (1, units * 10**6)], 2) for ident, start, end, units in [(5, 0, 0, 4), (3, 1, 0, 2), (4, 0, 1, 1)]]
CUBE = 3, [Coflow(ident, [start, 2], [(end, units * 10**6), (2, units * 10**6)], 2) for ident, start, end, units in [(1, 2, 0, 2), (2, 1, 2, 2), (3, 0, 0, 4), (4, 2, 2, 1)]]

DRAWN = [
    Kind(2, 3, 2, 2, 1, 3, 1),  # few units, and many ties
    Kind(4, 6, 3, 9, 1000, 9, 1),  # sizes that are rounded up
    Kind(3, 5, 2, 2**20, 10**6, 2**32, 1),  # great sizes and weights
]

KINDS = {"Full", "Already", "Joined", "NotHere", "Left", "StillOpen", "Version", "Rank", "Unranked", "NothingLeft", "Late", "Opened", "NotGranted", "Noted", "NoneOpen", "Closed", "StillOwed",
         "Skipped", "Weighed"}


def slot(r):
    """A slot to skip to: mostly an early one, now and then one near the last."""
    return LAST_SLOT - 3 + r.randrange(5) if r.randrange(3) == 0 else r.randrange(30)


def most(r, least):
    """How many slots a run is to have at most: mostly few, now and then as many as can be said."""
    return 2**64 - 1 if r.randrange(6) == 0 else least + r.randrange(3)


def command(r, ports, coflows):
    """A command of which one in thirty is out of range."""
    coflow, port, some = (r.randrange(coflows), r.randrange(ports), 1) if r.randrange(30) else (coflows, ports, 0)
    word = r.choices(["register", "withdraw", "publish", "pull", "open", "short", "close", "skip", "reweigh"], [2, 1, 2, 2, 3, 2, 2, 1, 1])[0]
    return (word, *{
        "publish": [], "close": [], "open": [most(r, some)], "short": [port, r.randrange(4)], "skip": [slot(r)], "reweigh": [coflow, some + r.randrange(5)],
    }.get(word, [coflow]))


def line(r, ports, coflows):
    """A line of a list: a command of one of three callers, or now and then that all is told."""
    return ["tell"] if r.randrange(12) == 0 else [r.randrange(3), *command(r, ports, coflows)]


def game(ports, coflows, limit, lines):
    """The text of a list, by lines, what a plain master says to it, and that master."""
    master, said = Master(ports, coflows, limit), []
    for who, *words in lines:
        asked = (words[0], *map(int, words[1:])) if words else None
        if who == "tell":
            said += master.told()
        elif not master.is_in_range(*asked):
            said.append("out of range")
        else:
            reply = master.ask(int(who), asked)
            said.append(named(reply[0], reply[1:]))
    head = ["master", limit, *(coflow.weight for coflow in coflows)]
    return [written(head), *map(written, lines)], said + master.told() + master.closed() + master.entries(), master


def fault_of_drawn(folder, seed, ports, coflows, limit, met):
    """What is wrong with what the program says to a drawn list of 120 lines, or None. The kinds of replies that are met are added."""
    r = random.Random(seed)
    lines, said, master = game(ports, coflows, limit, [line(r, ports, len(coflows)) for _ in range(120)])
    met |= {it.split("(")[0] for it in said}
    have = ran(folder, ports, coflows, lines)
    return first_difference(have, said) or fault_of_schedule(have, master)


def results(folder):
    """The name of each comparison and what is wrong, or None."""
    for name, *row in ROWS:
        yield name, fault_of_row(folder, *row)
    for name, trace in ("two ports", SQUARE), ("three ports", CUBE):
        met = set()
        for seed in range(36):
            yield "%s, list %d" % (name, seed), fault_of_drawn(folder, seed, *trace, (9, 40, 100)[seed % 3], met)
        yield "%s: each reply is met" % name, "not met: %s" % (KINDS - met) if KINDS - met else None
    for seed in range(240):
        ports, coflows, _ = drawn(DRAWN[seed % len(DRAWN)], random.Random(seed))
        yield "drawn trace, list %d" % seed, fault_of_drawn(folder, seed, ports, coflows, (9, 40, 100)[seed // 3 % 3], set())


def compared(all_results):
    """Prints what is wrong, and how many comparisons passed and failed; the exit code."""
    passed, failed = 0, 0
    for name, fault in all_results:
        if fault:
            print("%s: %s" % (name, fault))
        passed, failed = passed + (not fault), failed + bool(fault)
    print("%d passed, %d failed" % (passed, failed))
    return 1 if failed else 0


def main():
    build()
    with tempfile.TemporaryDirectory() as folder:
        make_library(folder)
        return compared(results(folder))


if __name__ == "__main__":
    sys.exit(main())
