#!/usr/bin/env python3
"""Serves drawn orders of drawn traces by the plain program of `plain_plan.py`, and compares its texts with what `serve` of the built program prints.

Use: checks/plain_serve.py [TRACES]     The last line is 'N passed, M failed'; the exit code is 0 where none failed.

Each printed report is checked by the built program too: the answer is yes, or that the cost is above four times the bound and the slack, and nothing else. Of each order a drawn fault is made,
and the line on standard error is that of the first fault that a plain reader finds. `examples/own_schedule.py` makes the same report from the plan and the runs, which are cut at drawn slots.
"""
import os
import random
import re
import subprocess
import sys
import tempfile

sys.dont_write_bytecode = True  # the folder stays as it is

from plain_plan import KINDS, PROGRAM, TOP, bound_and_slack, certificate, completions, drawn, flows_of, plan_of, ran, served, trace_text, weights_text, write

sys.path.append(os.path.join(TOP, "examples"))

import own_schedule  # noqa: E402

BLANKS = re.compile("[\t\r ]+")  # what parts the fields of a line
GREATEST = 2**64 - 1  # a greater id is told as this


# Reports


def report_of(ports, coflows, unit, order):
    """The bound, the slack, the cost, and the text of the report of an order, which has the numbers of the coflows."""
    flows, weights = flows_of(coflows, unit), [coflow.weight for coflow in coflows]
    entries = certificate(flows, weights, ports)
    bound, slack = bound_and_slack(flows, weights, entries)
    runs = served(flows, order)
    done = completions(flows, len(coflows), runs)
    cost = sum(weight * slot for weight, slot in zip(weights, done))
    lines = ["sincronia 2"]
    for place, (coflow, (side, number), price) in enumerate(entries, 1):
        lines.append("place %d %d %s %d %d %d %d" % (place, coflows[coflow].ident, ("in", "out")[side], number, price, done[coflow], weights[coflow]))
    lines += ["bound %d" % bound, "slack %d" % slack, "cost %d" % cost]
    lines += [" ".join(map(str, ["run", length, *granted])) for length, granted in runs]
    return bound, slack, cost, "\n".join(lines + ["end", ""])


def verdict_of(bound, slack, cost):
    """The exit code and the line of `check` on such a report."""
    most = 4 * bound + slack
    if cost > most:
        return 1, "no ratio %d %d\n" % (cost, most)
    return 0, "yes bound %d slack %d cost %d\n" % (bound, slack, cost)


# Orders as texts


def order_text(idents, r):
    """The order with drawn blanks, blank lines, leading zeros and ends of lines."""
    text = ""
    for ident in idents:
        text += r.choice(["", "", "", "\n", " \t\n", "\r\n"])
        text += r.choice(["", " ", "\t"]) + "0" * r.choice([0, 0, 0, 2]) + str(ident) + r.choice(["", " ", "\t \t"]) + r.choice(["\n", "\r\n"])
    return text[:-1] if r.random() < 0.2 and not text.endswith("\r\n") else text


def fault_in(text, idents):
    """The line on standard error of the first fault of an order of coflows with these ids, or None."""
    seen, lines = set(), 0
    for number, line in enumerate(text.split("\n"), 1):
        fields = [field for field in BLANKS.split(line) if field]
        if not fields:
            continue
        if not re.fullmatch("[0-9]+", fields[0]):
            return "order: line %d field 1" % number
        ident = int(fields[0])
        if ident not in idents:
            return "order: line %d unknown id %d" % (number, min(ident, GREATEST))
        if ident in seen:
            return "order: line %d repeats id %d" % (number, ident)
        if len(fields) > 1:
            return "order: line %d field 2" % number
        seen.add(ident)
        lines += 1
    if lines < len(idents):
        return "order: have %d lines, want %d" % (lines, len(idents))
    return None


def spoiled(text, r):
    """The order with one to three drawn changes, which may leave it right."""
    lines = text.split("\n")
    for _ in range(r.randint(1, 3)):
        place = r.randrange(len(lines))
        lines[place] = r.choice(
            [
                lambda line: line + " 7",
                lambda line: "",
                lambda line: line + "x",
                lambda line: "-" + line,
                lambda line: line.replace("1", "9"),
                lambda line: r.choice(lines),
                lambda line: str(2 ** r.choice([31, 32, 64, 200])),
                lambda line: line + "\n" + r.choice(lines),
            ]
        )(lines[place])
    return "\n".join(lines)


# The comparison


def cut(runs, r):
    """The same schedule, in which a drawn part of the runs are two, and flows stand in any order."""
    parts = []
    for length, flows in runs:
        first = r.randint(1, length) if r.random() < 0.5 else length
        parts += [(part, r.sample(flows, len(flows))) for part in (first, length - first) if part > 0]
    return parts


def refusal_of(folder, options):
    """The exit code, the output and the line on standard error of the built program that serves the order in the folder."""
    ended = subprocess.run([PROGRAM, "serve", "trace", "order", *options], cwd=folder, stdin=subprocess.DEVNULL, capture_output=True, timeout=60)
    return ended.returncode, ended.stdout.decode(), ended.stderr.decode()


def fault_of(folder, ports, coflows, unit, r):
    """What is wrong with what the built program says of a drawn order, or None."""
    order = r.sample(range(len(coflows)), len(coflows))
    idents = [coflows[coflow].ident for coflow in order]
    bound, slack, cost, text = report_of(ports, coflows, unit, order)
    write(folder, "trace", trace_text(ports, coflows))
    write(folder, "weights", weights_text(coflows))
    given = order_text(idents, r)
    write(folder, "order", given)
    options = ["--weights", "weights", "--unit", str(unit)]
    if ran(folder, ["serve", "trace", "order", *options]) != (0, text):
        return "another report is printed"
    write(folder, "report", text)
    if ran(folder, ["check", "trace", "report", *options]) != verdict_of(bound, slack, cost):
        return "another verdict is printed"
    runs = cut([(int(words[1]), [int(word) for word in words[2:]]) for words in map(str.split, text.splitlines()) if words[0] == "run"], r)
    if own_schedule.report_of(trace_text(ports, coflows), plan_of(ports, coflows, unit).text, runs, unit) != text:
        return "the example makes another report"
    changed = spoiled(given, r)
    fault = fault_in(changed, idents)
    if fault:
        write(folder, "order", changed)
        if refusal_of(folder, options) != (12, "", "sincronia: %s\n" % fault):
            return "another fault than '%s' is told of the order %r" % (fault, changed)
    return None


def main():
    count = int(sys.argv[1]) if len(sys.argv) > 1 else 300
    failed = 0
    with tempfile.TemporaryDirectory() as folder:
        for seed in range(count):
            r = random.Random(seed)
            trace = drawn(KINDS[seed % len(KINDS)], r)
            fault = fault_of(folder, *trace, r)
            if fault:
                print("trace %d: %s\n%s" % (seed, fault, trace_text(*trace[:2])))
                failed += 1
    print("%d passed, %d failed" % (count - failed, failed))
    return 1 if failed else 0


if __name__ == "__main__":
    sys.exit(main())
