#!/usr/bin/env python3
"""Makes the report of a schedule of your own, for `sincronia check`: the places and the bound of a plan, with the completions, the cost and the runs of your schedule.

Use: examples/own_schedule.py TRACE PLAN RUNS [UNIT] > REPORT

PLAN is what `sincronia plan` wrote for this trace and UNIT. Each line of RUNS has how many slots a run has, and the numbers of the flows that each of its slots serves.
"""
import sys
from fractions import Fraction
from math import ceil


def coflows_of(trace, unit):
    """The id of the coflow of each flow. Flows are numbered by coflow, ingress port and egress port; a coflow sends between two ports what its reducer's units are by mapper."""
    ids = []
    for ident, _, count, *words in (line.split() for line in trace.splitlines()[1:] if line.split()):
        mappers, reducers, pairs = words[: int(count)], words[int(count) + 1 :], set()
        for egress, size in (word.split(":") for word in reducers):
            units = ceil(Fraction(size) / unit)
            pairs |= {(int(ingress), int(egress)) for k, ingress in enumerate(mappers) if k < units}
        ids += [int(ident)] * len(pairs)
    return ids


def report_of(trace, plan, runs, unit=1):
    """The report as a text. The runs are pairs of a number of slots and a list of flows."""
    owner, done, slot, merged = coflows_of(trace, unit), {}, 0, []
    for length, flows in runs:
        slot += length
        done.update((owner[flow], slot) for flow in flows)
        if merged and merged[-1][1] == sorted(flows):
            merged[-1][0] += length  # neighbouring runs differ
        else:
            merged.append([length, sorted(flows)])
    places = [line.split() for line in plan.splitlines() if line.startswith("place")]
    for place in places:
        place[6] = str(done.get(int(place[2]), 0))
    cost = sum(int(place[6]) * int(place[7]) for place in places)
    totals = [line for line in plan.splitlines() if line.startswith(("bound", "slack"))]
    lines = ["sincronia 2", *map(" ".join, places), *totals, "cost %d" % cost]
    return "\n".join(lines + ["run " + " ".join(map(str, [length, *flows])) for length, flows in merged] + ["end", ""])


if __name__ == "__main__":
    texts = [open(name, encoding="ascii").read() for name in sys.argv[1:4]]
    own = [(int(words[0]), [int(word) for word in words[1:]]) for words in map(str.split, texts[2].splitlines()) if words]
    sys.stdout.write(report_of(texts[0], texts[1], own, int(sys.argv[4]) if len(sys.argv) > 4 else 1))
