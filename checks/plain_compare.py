#!/usr/bin/env python3
"""Compares rankers and folds orders into classes by a plain program that follows the definitions one by one, and compares its texts with what the built program prints.

Use: checks/plain_compare.py [TRACES]     The last line is 'N passed, M failed'; the exit code is 0 where none failed.
     checks/plain_compare.py --plain      compares the plain program with worked texts and with those of the pages alone; no built program is needed.

The traces are drawn: their weights, arrivals, sizes of a unit, numbers of classes and ways to fold too. Of each, no row is below the bound, the schedule that serves the class order keeps the classes slot by slot,
and its cost is at most the cap. Then come worked texts, and the commands that docs/COMPARE.md and docs/FORMATS.md show.
"""
import os
import random
import shlex
import subprocess
import sys
import tempfile

sys.dont_write_bytecode = True  # the folder stays as it is

from plain_plan import KINDS, PROGRAM, TOP, Coflow, bound_and_slack, certificate, completions, drawn, flows_of, load, ran, served, trace_text, weights_text, write

PAGES = [os.path.join(TOP, "docs", name) for name in ("COMPARE.md", "FORMATS.md")]
ROOM = 4096  # the coflows for which the program's learning ranker has room
FIRST_CLASSES = 8  # how many classes there are where the words do not say

# Traces


def read_trace(text):
    """The number of ports, the coflows and their arrivals, of a trace without faults."""
    lines = [line.split() for line in text.splitlines() if line.split()]
    coflows, arrivals = [], []
    for ident, arrival, mappers, *words in lines[1:]:
        count = int(mappers)
        reducers = [word.split(":") for word in words[count + 1 :]]
        sizes = [(int(location), millionths(size)) for location, size in reducers]
        coflows.append(Coflow(int(ident), [int(word) for word in words[:count]], sizes, 1))
        arrivals.append(int(arrival))
    return int(lines[0][0]) + 1, coflows, arrivals


def millionths(size):
    """Of a number of megabytes, decimal with a point or without one."""
    whole, _, part = size.partition(".")
    return int(whole) * 10**6 + int((part + "000000")[:6])


def arriving(text, arrivals):
    """The trace with these arrivals in milliseconds."""
    first, *lines = text.splitlines()
    words = [line.split(" ") for line in lines]
    return "\n".join([first] + [" ".join([word[0], str(arrival), *word[2:]]) for word, arrival in zip(words, arrivals)]) + "\n"


# Rankers


def by_key(keys):
    """The coflows by their keys, and those of one key by number."""
    return sorted(range(len(keys)), key=lambda coflow: (keys[coflow], coflow))


def bottlenecks(flows, ports, coflows):
    """The greatest load of each coflow on a port of either side."""
    return [max(load(flows, coflow, (side, number)) for side in (0, 1) for number in range(ports)) for coflow in range(coflows)]


class Learning:
    """Remembers the slot of the last note of each coflow that it has room for, and puts the least one first."""

    def __init__(self, room):
        self.slots = [0] * room

    def rank(self, coflows):
        return by_key([self.slots[coflow] if coflow < len(self.slots) else 0 for coflow in range(coflows)])

    def note(self, coflow, slot):
        if coflow < len(self.slots):
            self.slots[coflow] = slot


def cost_of(flows, weights, order):
    """The cost of the schedule that serves the order, and its completions."""
    done = completions(flows, len(weights), served(flows, order))
    return sum(weight * slot for weight, slot in zip(weights, done)), done


def rows_of(flows, weights, arrivals, ports, order):
    """The name and the costs of the two rounds of each ranker of the program's bench."""
    fixed = [("bssi", order), ("sebf", by_key(bottlenecks(flows, ports, len(weights)))), ("fifo", by_key(arrivals))]
    rows = [(name, [cost_of(flows, weights, answer)[0]] * 2) for name, answer in fixed]
    learning, costs = Learning(ROOM), []
    for _ in range(2):
        cost, done = cost_of(flows, weights, learning.rank(len(weights)))
        costs.append(cost)
        for coflow in by_key(done):
            learning.note(coflow, done[coflow])
    return rows + [("attained", costs)]


def compared(ports, coflows, arrivals, unit):
    """The bound, the rows and the text of a comparison."""
    flows, weights = flows_of(coflows, unit), [coflow.weight for coflow in coflows]
    entries = certificate(flows, weights, ports)
    bound = bound_and_slack(flows, weights, entries)[0]
    rows = rows_of(flows, weights, arrivals, ports, [entry.coflow for entry in entries])
    lines = ["sincronia compare 1", "bound %d" % bound]
    for index, (name, costs) in enumerate(rows, 1):
        lines += ["row %d %d %s cost %d" % (index, turn, name, cost) for turn, cost in enumerate(costs, 1)]
    return bound, rows, "\n".join(lines + ["end", ""])


# Classes


def folded_by_count(order, classes):
    """The class of each coflow. Of n coflows the one at place r of the order, counted from 0, has the class 1 + r * classes / n, rounded down."""
    numbers = [0] * len(order)
    for place, coflow in enumerate(order):
        numbers[coflow] = 1 + place * classes // len(order)
    return numbers


def folded_by_load(order, classes, loads):
    """The class of each coflow. Where the bottlenecks before a coflow sum to b and all to s, it has the class 1 + b * classes / s, rounded down, and at most the last one. Where s is 0 it has class 1."""
    numbers = [1] * len(order)
    for place, coflow in enumerate(order):
        if any(loads):
            numbers[coflow] = min(classes, 1 + sum(loads[other] for other in order[:place]) * classes // sum(loads))
    return numbers


def folded(fold, order, classes, loads):
    return folded_by_load(order, classes, loads) if fold == "load" else folded_by_count(order, classes)


def cap_of(flows, weights, classes):
    """The sum of weight times cap. The cap of a coflow is the greatest one of its flows, and that of a flow the loads of its two ports over the coflows up to its class, less its own units."""
    caps = [0] * len(weights)
    for flow in flows:
        upto = [coflow for coflow, number in enumerate(classes) if number <= classes[flow.coflow]]
        loads = [sum(load(flows, coflow, port) for coflow in upto) for port in ((0, flow.ingress), (1, flow.egress))]
        caps[flow.coflow] = max(caps[flow.coflow], sum(loads) - flow.units)
    return sum(weight * cap for weight, cap in zip(weights, caps))


def keeps_classes(flows, classes, runs):
    """Whether in each slot each flow that owes is served, or has a port that serves a coflow of its class or an earlier one, and all is served in the end. The slots of a run serve the same flows,
    and what a flow owes that they do not serve stays the same."""
    left = [flow.units for flow in flows]
    for length, granted in runs:
        for number, flow in enumerate(flows):
            holders = [flows[g] for g in granted if flows[g].ingress == flow.ingress or flows[g].egress == flow.egress]
            if left[number] > 0 and number not in granted and not any(classes[it.coflow] <= classes[flow.coflow] for it in holders):
                return False
        for g in granted:
            left[g] -= length
    return not any(left)


def classed(ports, coflows, unit, count, fold):
    """Whether classes are kept and the cost is at most the cap, and the text of the classes."""
    flows, weights = flows_of(coflows, unit), [coflow.weight for coflow in coflows]
    classes = folded(fold, [entry.coflow for entry in certificate(flows, weights, ports)], count, bottlenecks(flows, ports, len(weights)))
    order = by_key(classes)
    runs, cap, cost = served(flows, order), cap_of(flows, weights, classes), cost_of(flows, weights, order)[0]
    lines = ["sincronia classes 1"] + ["member %d %d" % (classes[coflow], coflows[coflow].ident) for coflow in order]
    lines += ["cap %d" % cap, "cost %d" % cost]
    lines += [" ".join(map(str, ["run", length, *granted])) for length, granted in runs]
    return keeps_classes(flows, classes, runs) and cost <= cap, "\n".join(lines + ["end", ""])


# What is compared

TWO = "2 2\n1 0 1 0 1 1:3\n2 0 1 0 1 1:1\n"

# words behind the name of the trace, the trace, and the text that was worked out by hand
WORKED = [
    (
        ["compare"],
        TWO,
        "sincronia compare 1\nbound 5\nrow 1 1 bssi cost 5\nrow 1 2 bssi cost 5\nrow 2 1 sebf cost 5\nrow 2 2 sebf cost 5\nrow 3 1 fifo cost 7\nrow 3 2 fifo cost 7\n"
        "row 4 1 attained cost 7\nrow 4 2 attained cost 7\nend\n",
    ),
    (["classes", "--classes", "2"], TWO, "sincronia classes 1\nmember 1 2\nmember 2 1\ncap 6\ncost 5\nrun 1 1\nrun 3 0\nend\n"),
    (["classes", "--classes", "1"], TWO, "sincronia classes 1\nmember 1 1\nmember 1 2\ncap 12\ncost 7\nrun 3 0\nrun 1 1\nend\n"),
    (["classes"], "2 0\n", "sincronia classes 1\ncap 0\ncost 0\nend\n"),
    (["classes", "--fold", "load"], "2 0\n", "sincronia classes 1\ncap 0\ncost 0\nend\n"),
    (["classes", "--classes", "2", "--fold", "count"], TWO, "sincronia classes 1\nmember 1 2\nmember 2 1\ncap 6\ncost 5\nrun 1 1\nrun 3 0\nend\n"),
    (["classes", "--classes", "2", "--fold", "load"], TWO, "sincronia classes 1\nmember 1 1\nmember 1 2\ncap 12\ncost 7\nrun 3 0\nrun 1 1\nend\n"),
    (["classes", "--classes", "4", "--fold", "load"], TWO, "sincronia classes 1\nmember 1 2\nmember 2 1\ncap 6\ncost 5\nrun 1 1\nrun 3 0\nend\n"),
]


def text_of(words, trace):
    """What the plain program prints to a command, the options of which are `--classes`, `--fold` and `--unit`. To `cat` it is the trace."""
    if words[0] == "cat":
        return trace
    ports, coflows, arrivals = read_trace(trace)
    options = dict(zip(words[1::2], words[2::2]))
    unit = int(options.get("--unit", 1))
    if words[0] == "compare":
        return compared(ports, coflows, arrivals, unit)[2]
    return classed(ports, coflows, unit, int(options.get("--classes", FIRST_CLASSES)), options.get("--fold", "count"))[1]


def shown(page):
    """The commands of a page with what it shows of them: a command stands in an indented block behind `    $ `, and the lines below it are what it prints."""
    found, lines = [], None
    with open(page, encoding="utf-8") as file:
        for line in file:
            if line.startswith("    $ "):
                lines = []
                found.append((shlex.split(line)[1:], lines))
            elif line.startswith("    ") and lines is not None:
                lines.append(line[4:])
            else:
                lines = None
    return [(command, "".join(lines)) for command, lines in found]


def cases():
    """Each worked text and each text of the pages, with its words and its trace."""
    yield from WORKED
    for (program, *words), text in (command for page in PAGES for command in shown(page)):
        if words[0] == "replay":
            continue  # plain_replay.py looks at these
        name = words[0 if program == "cat" else 1]
        with open(os.path.join(TOP, name), encoding="ascii") as file:
            trace = file.read()
        yield ["cat"] if program == "cat" else [words[0], *words[2:]], trace, text


def fault_of_case(folder, words, trace, text):
    """What is wrong with a worked text, or None. Without a folder the built program is not run."""
    if text_of(words, trace) != text:
        return "the plain program prints another text"
    if folder and words[0] != "cat":
        write(folder, "trace", trace)
        if ran(folder, [words[0], "trace", *words[1:]]) != (0, text):
            return "the built program prints another text"
    return None


def fault_of(folder, ports, coflows, unit, r):
    """What is wrong with what the built program says of a drawn trace, or None."""
    arrivals = [r.randrange(4) for _ in coflows]
    count = r.randint(1, 64) if r.random() < 0.5 else r.randint(1, len(coflows) + 1)
    bound, rows, text = compared(ports, coflows, arrivals, unit)
    if any(cost < bound for _, costs in rows for cost in costs):
        return "a row is below the bound"
    fold = r.choice(("count", "load"))
    kept, classes = classed(ports, coflows, unit, count, fold)
    if not kept:
        return "the class order does not keep its classes, or costs more than the cap"
    write(folder, "trace", arriving(trace_text(ports, coflows), arrivals))
    write(folder, "weights", weights_text(coflows))
    options = ["--weights", "weights", "--unit", str(unit)]
    if ran(folder, ["compare", "trace", *options]) != (0, text):
        return "another comparison is printed"
    if ran(folder, ["classes", "trace", "--classes", str(count), "--fold", fold, *options]) != (0, classes):
        return "other classes are printed"
    return None


def main():
    plain = sys.argv[1:] == ["--plain"]
    count = 0 if plain else int(sys.argv[1]) if len(sys.argv) > 1 else 300
    passed = failed = 0
    with tempfile.TemporaryDirectory() as folder:
        for words, trace, text in cases():
            fault = fault_of_case(None if plain else folder, words, trace, text)
            if fault:
                print("%s: %s\n%s" % (" ".join(words), fault, trace))
            passed, failed = passed + (fault is None), failed + (fault is not None)
        for seed in range(count):
            r = random.Random(seed)
            ports, coflows, unit = drawn(KINDS[seed % len(KINDS)], r)
            fault = fault_of(folder, ports, coflows, unit, r)
            if fault:
                print("trace %d: %s\n%s" % (seed, fault, trace_text(ports, coflows)))
            passed, failed = passed + (fault is None), failed + (fault is not None)
    print("%d passed, %d failed" % (passed, failed))
    return 1 if failed else 0


if __name__ == "__main__":
    sys.exit(main())
