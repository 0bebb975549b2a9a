#!/usr/bin/env python3
"""Tells the numbers of drawn schedules by a plain program that follows the definitions one by one, and compares its texts with what the built `sincronia_stats` prints.

Use: checks/plain_stats.py [TRACES]     The last line is 'N passed, M failed'; the exit code is 0 where none failed.

The reports are those of plans and of given orders by plain programs, and those of online runs as the built program writes them; completions are counted from their runs. Then come worked rows of
percentiles, and reports that are not right, which are refused.
"""
import os
import random
import subprocess
import sys
import tempfile

sys.dont_write_bytecode = True  # the folder stays as it is

from plain_compare import arriving
from plain_plan import KINDS, TOP, completions, drawn, flows_of, load, plan_of, ran, trace_text, up, weights_text, write
from plain_serve import report_of

PROGRAM = os.path.join(TOP, "crates", "sincronia_stats", "out", "sincronia_stats")
NAMES = ["short-narrow", "long-narrow", "short-wide", "long-wide"]
NOT_RIGHT = "sincronia_stats: report: not right for this trace and these weights; sincronia check says why\n"


# Numbers


def percentile(percent, numbers):
    """The number at the nearest rank: the least one that as many per cent of the numbers are not above."""
    ranked = sorted(numbers)
    return ranked[up(percent * len(ranked), 100) - 1]


def parted(number, digits):
    """A number with so many digits behind a point."""
    return "%d.%0*d" % (number // 10**digits, digits, number % 10**digits)


def ratio(cost, bound):
    return "-" if bound == 0 else parted(up(10**4 * cost, bound), 4)


def summary(measure, name, numbers, times):
    words = [measure, name, str(len(numbers))]
    if numbers:
        words += ["mean", parted(1000 * sum(numbers) * times // len(numbers), 3)]
        words += [word for percent, label in ((50, "median"), (95, "p95"), (99, "p99")) for word in (label, str(percentile(percent, numbers) * times))]
    return " ".join(words)


def group(flows, unit):
    """The group of a coflow with these flows."""
    long = any(flow.units * unit >= 5 for flow in flows)
    return NAMES[2 * (len(flows) > 50) + long]


def runs_in(report):
    return [(int(words[1]), [int(word) for word in words[2:]]) for words in map(str.split, report.splitlines()) if words[0] == "run"]


def value_in(report, name):
    return next(int(words[1]) for words in map(str.split, report.splitlines()) if words[0] == name)


def texts_of(ports, coflows, unit, arrivals, report, slot_ms):
    """The numbers of the report, and the text of its coflows. Arrivals, in slots, are those of an online run, and none of a plan."""
    flows, online = flows_of(coflows, unit), arrivals is not None
    arrivals = arrivals or [0] * len(coflows)
    runs = runs_in(report)
    ends = completions(flows, len(coflows), runs)
    durations = [max(end - arrival, 0) for end, arrival in zip(ends, arrivals)]
    owns = [[flow for flow in flows if flow.coflow == c] for c in range(len(coflows))]
    groups = [group(own, unit) for own in owns]
    bound, cost = value_in(report, "total" if online else "bound"), value_in(report, "cost")
    lines = ["sincronia stats 1", "coflows %d" % len(coflows), "bound %d" % bound, "cost %d" % cost, "ratio " + ratio(cost, bound)]
    if online:
        weighted = sum(coflow.weight * arrival for coflow, arrival, own in zip(coflows, arrivals, owns) if own)
        net_bound, net_cost = max(bound - weighted, 0), max(cost - weighted, 0)
        lines += ["arrivals %d" % weighted, "net-bound %d" % net_bound, "net-cost %d" % net_cost, "net-ratio " + ratio(net_cost, net_bound)]
    lines.append("makespan %d" % sum(length for length, _ in runs))
    for measure, times in [("slots", 1)] + ([("ms", slot_ms)] if slot_ms else []):
        lines.append(summary(measure, "all", durations, times))
        lines += [summary(measure, name, [duration for duration, own in zip(durations, groups) if own == name], times) for name in NAMES]
    rows = ["id,arrival,flows,units,bottleneck,weight,completion,duration,group"]
    for c, coflow in enumerate(coflows):
        bottleneck = max(load(flows, c, (side, number)) for side in (0, 1) for number in range(ports))
        row = [coflow.ident, arrivals[c], len(owns[c]), sum(flow.units for flow in owns[c]), bottleneck, coflow.weight, ends[c], durations[c], groups[c]]
        rows.append(",".join(map(str, row)))
    return "\n".join(lines + ["end", ""]), "\n".join(rows + [""])


# The comparison


def told(folder, words):
    """The exit code, the output and the line on standard error of the built program."""
    ended = subprocess.run([PROGRAM, *words], cwd=folder, stdin=subprocess.DEVNULL, capture_output=True, timeout=60)
    return ended.returncode, ended.stdout.decode(), ended.stderr.decode()


def fault_of(folder, seed, ports, coflows, unit, r):
    """What is wrong with what the built program says of a drawn schedule, or None."""
    ms = [r.randrange(0, 200) for _ in coflows]
    slot_ms = r.choice([None, 1, 3, 8, 2**20])
    write(folder, "trace", arriving(trace_text(ports, coflows), ms))
    write(folder, "weights", weights_text(coflows))
    options = ["--weights", "weights", "--unit", str(unit)]
    timed = ["--slot-ms", str(slot_ms)] if slot_ms else []
    arrivals = None
    if seed % 3 == 0:
        report = plan_of(ports, coflows, unit).text
    elif seed % 3 == 1:
        report = report_of(ports, coflows, unit, r.sample(range(len(coflows)), len(coflows)))[3]
    else:
        arrivals = [up(time, slot_ms or 8) for time in ms]
        code, report = ran(folder, ["online", "trace", *options, *timed, "--epoch", str(r.choice([1, 4, 1024]))])
        if code != 0:
            return None  # more orders than an online run may publish
    write(folder, "report", report)
    numbers, rows = texts_of(ports, coflows, unit, arrivals, report, slot_ms)
    words = ["trace", "report", *options, *timed]
    if told(folder, words) != (0, numbers, ""):
        return "other numbers are printed"
    if told(folder, words + ["--csv"]) != (0, rows, ""):
        return "other rows are printed"
    lines = report.splitlines()
    place = next(k for k, line in enumerate(lines) if line.startswith("cost"))
    lines[place] = "cost %d" % (int(lines[place].split()[1]) + 1)
    write(folder, "report", "\n".join(lines) + "\n")
    if told(folder, words) != (1, "", NOT_RIGHT):
        return "a wrong cost is not refused"
    return None


# count of coflows on one pair of ports, units of each, and the mean in thousandths with the ranks: the c-th coflow of one unit ends in slot c
WORKED = [(1, "1.000", 1, 1, 1), (2, "1.500", 1, 2, 2), (20, "10.500", 10, 19, 20), (101, "51.000", 51, 96, 100)]


def worked_fault(folder, count, mean, median, p95, p99):
    """What is wrong with what is told of so many coflows that end in the slots from 1 on, or None."""
    write(folder, "trace", "1 %d\n" % count + "".join("%d 0 1 0 1 0:1\n" % c for c in range(count)))
    write(folder, "order", "".join("%d\n" % c for c in range(count)))
    write(folder, "report", ran(folder, ["serve", "trace", "order"])[1])
    want = "slots all %d mean %s median %d p95 %d p99 %d" % (count, mean, median, p95, p99)
    code, out, _ = told(folder, ["trace", "report"])
    return None if code == 0 and want in out.splitlines() else "not '%s'" % want


def main():
    count = int(sys.argv[1]) if len(sys.argv) > 1 else 300
    failed = 0
    with tempfile.TemporaryDirectory() as folder:
        for seed in range(count):
            r = random.Random(seed)
            trace = drawn(KINDS[seed // 3 % len(KINDS)], r)
            fault = fault_of(folder, seed, *trace, r)
            if fault:
                print("trace %d: %s\n%s" % (seed, fault, trace_text(*trace[:2])))
                failed += 1
        for row in WORKED:
            fault = worked_fault(folder, *row)
            if fault:
                print("%d coflows: %s" % (row[0], fault))
                failed += 1
    count += len(WORKED)
    print("%d passed, %d failed" % (count - failed, failed))
    return 1 if failed else 0


if __name__ == "__main__":
    sys.exit(main())
