#!/usr/bin/env python3
"""Plans drawn traces by a plain program that follows the definitions one by one, and compares its text with what the built program prints.

Use: checks/plain_plan.py [TRACES]     The last line is 'N passed, M failed'; the exit code is 0 where none failed.

Each printed plan is also checked by the built program, which must say yes. Where a trace has few units, the least cost of all schedules is found by search:
it is neither below the bound nor above the cost.
"""
import functools
import itertools
import os
import random
import subprocess
import sys
import tempfile
from collections import namedtuple

TOP = os.path.dirname(os.path.dirname(os.path.abspath(__file__)))
PROGRAM = os.path.join(TOP, "crates", "sincronia", "out", "sincronia")

ONE = 2**40  # a weight of 1 in the parts in which a certificate counts
SEARCHED = 9  # up to so many units the best schedule is searched for

Coflow = namedtuple("Coflow", "ident mappers reducers weight")  # a reducer has a location and millionths of a megabyte
Flow = namedtuple("Flow", "coflow ingress egress units")
Entry = namedtuple("Entry", "coflow port price")  # a port is its side, 0 for ingress and 1 for egress, and its number; the price is what each unit of load there is charged


def up(dividend, divisor):
    """The quotient, rounded up."""
    return -(-dividend // divisor)


# The instance


def flows_of(coflows, unit):
    """The flows in the order of coflow, ingress and egress. What a reducer takes is rounded up to units and spread over its coflow's mappers, the first of which send one more where it is
    uneven."""
    units = {}
    for number, coflow in enumerate(coflows):
        for egress, millionths in coflow.reducers:
            whole = up(millionths, unit * 10**6)
            for k, ingress in enumerate(coflow.mappers):
                share = whole // len(coflow.mappers) + (k < whole % len(coflow.mappers))
                if share > 0:
                    key = (number, ingress, egress)
                    units[key] = units.get(key, 0) + share
    return [Flow(*key, units[key]) for key in sorted(units)]


def load(flows, coflow, port):
    """The units of the coflow that pass the port."""
    side, number = port
    return sum(flow.units for flow in flows if flow.coflow == coflow and (flow.ingress, flow.egress)[side] == number)


# The order and its certificate


def certificate(flows, weights, ports):
    """The entries of the ordering certificate, first place first. From the last place on: the port with the most load of the coflows that are left, the first one of these, and the coflow
    whose residual weight for each unit of load there is least, the last one of these. The coflow pays for each unit what its residual allows, rounded down."""
    every = [(side, number) for side in (0, 1) for number in range(ports)]
    table = {(c, port): load(flows, c, port) for c in range(len(weights)) for port in every}
    left, entries = list(range(len(weights))), []
    while left:
        totals = [sum(table[c, port] for c in left) for port in every]
        port = every[totals.index(max(totals))]
        rest = {c: weights[c] * ONE - sum(entry.price * table[c, entry.port] for entry in entries) for c in left}
        paying = [c for c in left if table[c, port] > 0]
        if paying:
            last = paying[0]
            for c in paying[1:]:
                if rest[c] * table[last, port] <= rest[last] * table[c, port]:
                    last = c
            price = rest[last] // table[last, port]
        else:
            last, price = left[-1], 0
        entries.append(Entry(last, port, price))
        left.remove(last)
    return entries[::-1]


def bound_and_slack(flows, weights, entries):
    """Both are sums over the places, rounded up to weights of 1, where the load of a place is that of its coflow and of all before it on the port of the place. The bound: half of the price
    times the square of that load and the squares of what each of these coflows has in it. The slack: twice what the weight of the coflow leaves unpaid, times that load."""
    bound, slack = 0, 0
    for k, entry in enumerate(entries):
        loads = [load(flows, earlier.coflow, entry.port) for earlier in entries[: k + 1]]
        paid = sum(later.price * load(flows, entry.coflow, later.port) for later in entries[k:])
        bound += entry.price * (sum(loads) ** 2 + sum(number**2 for number in loads))
        slack += (weights[entry.coflow] * ONE - paid) * sum(loads)
    return up(bound, 2 * ONE), up(2 * slack, ONE)


# The schedule


def grants(flows, order, left):
    """The flows that are served in one slot: coflow by coflow in the order, each flow that owes and finds both its ports free."""
    granted, taken = [], set()
    for coflow in order:
        for number, flow in enumerate(flows):
            ends = {(0, flow.ingress), (1, flow.egress)}
            if flow.coflow == coflow and left[number] > 0 and not ends & taken:
                granted.append(number)
                taken |= ends
    return sorted(granted)


def served(flows, order):
    """The runs of equal slots of the schedule that serves the order: grants stay the same until a granted flow owes nothing more, and no longer."""
    left, runs = [flow.units for flow in flows], []
    while any(left):
        granted = grants(flows, order, left)
        length = min(left[number] for number in granted)
        for number in granted:
            left[number] -= length
        runs.append((length, granted))
    return runs


def completions(flows, coflows, runs):
    """For each coflow the last slot that serves one of its flows, or 0."""
    done, slot = [0] * coflows, 0
    for length, granted in runs:
        slot += length
        for number in granted:
            done[flows[number].coflow] = slot
    return done


def least_cost(flows, weights):
    """The least cost of all schedules: each slot costs the weights of the coflows that are not complete before it."""

    def valid(slot):
        return len({flows[f].ingress for f in slot}) == len(slot) == len({flows[f].egress for f in slot})

    @functools.lru_cache(maxsize=None)
    def cost(left):
        owing = [f for f, units in enumerate(left) if units > 0]
        if not owing:
            return 0
        slots = [slot for size in range(1, len(owing) + 1) for slot in itertools.combinations(owing, size) if valid(slot)]
        waiting = sum(weights[c] for c in {flows[f].coflow for f in owing})
        return waiting + min(cost(tuple(units - (f in slot) for f, units in enumerate(left))) for slot in slots)

    return cost(tuple(flow.units for flow in flows))


# Plans as texts

Plan = namedtuple("Plan", "flows weights bound slack cost text")


def plan_of(ports, coflows, unit):
    flows, weights = flows_of(coflows, unit), [coflow.weight for coflow in coflows]
    entries = certificate(flows, weights, ports)
    bound, slack = bound_and_slack(flows, weights, entries)
    runs = served(flows, [entry.coflow for entry in entries])
    done = completions(flows, len(coflows), runs)
    cost = sum(weight * slot for weight, slot in zip(weights, done))
    lines = ["sincronia 2"]
    for place, (coflow, (side, number), price) in enumerate(entries, 1):
        lines.append("place %d %d %s %d %d %d %d" % (place, coflows[coflow].ident, ("in", "out")[side], number, price, done[coflow], weights[coflow]))
    lines += ["bound %d" % bound, "slack %d" % slack, "cost %d" % cost]
    lines += [" ".join(map(str, ["run", length, *granted])) for length, granted in runs]
    return Plan(flows, weights, bound, slack, cost, "\n".join(lines + ["end", ""]))


# Drawn traces

Kind = namedtuple("Kind", "ports coflows locations megabytes parts weight unit")  # the greatest of each; a megabyte has so many parts, of which sizes are made

KINDS = [
    Kind(2, 3, 2, 2, 1, 3, 1),  # few units, and many ties
    Kind(4, 6, 3, 9, 1000, 9, 4),  # sizes that are rounded up
    Kind(5, 6, 4, 2**30, 10**6, 2**32, 2**20),  # great sizes, weights and units
]


def drawn(kind, r):
    """A number of ports, coflows and a unit."""
    ports = r.randint(2, kind.ports)

    def size():
        return up(r.randint(0, kind.megabytes * kind.parts) * 10**6, kind.parts)

    idents = r.sample(range(2**32 if kind.parts > 1 else 9), r.randint(1, kind.coflows))
    coflows = [
        Coflow(
            ident,
            [r.randrange(ports) for _ in range(r.randint(1, kind.locations))],
            [(r.randrange(ports), size()) for _ in range(r.randint(0, kind.locations))],
            r.randint(1, kind.weight),
        )
        for ident in idents
    ]
    return ports, coflows, r.randint(1, kind.unit)


def trace_text(ports, coflows):
    """The trace. Its first line has the greatest location, which is one less than the number of ports, and the number of coflows."""
    lines = ["%d %d" % (ports - 1, len(coflows))]
    for coflow in coflows:
        sizes = ["%d:%d.%06d" % (location, *divmod(millionths, 10**6)) for location, millionths in coflow.reducers]
        lines.append(" ".join(map(str, [coflow.ident, 0, len(coflow.mappers), *coflow.mappers, len(sizes), *sizes])))
    return "\n".join(lines) + "\n"


def weights_text(coflows):
    return "".join("%d %d\n" % (coflow.ident, coflow.weight) for coflow in coflows)


# The comparison


def ran(folder, words):
    """The exit code and the standard output of the built program."""
    ended = subprocess.run([PROGRAM, *words], cwd=folder, stdin=subprocess.DEVNULL, capture_output=True, timeout=60)
    return ended.returncode, ended.stdout.decode()


def write(folder, name, text):
    with open(os.path.join(folder, name), "w", newline="") as file:
        file.write(text)


def fault_of(folder, ports, coflows, unit):
    """What is wrong with what the built program says of a trace, or None."""
    plan = plan_of(ports, coflows, unit)
    write(folder, "trace", trace_text(ports, coflows))
    write(folder, "weights", weights_text(coflows))
    options = ["--weights", "weights", "--unit", str(unit)]
    if ran(folder, ["plan", "trace", *options]) != (0, plan.text):
        return "another plan is printed"
    write(folder, "report", plan.text)
    if ran(folder, ["check", "trace", "report", *options]) != (0, "yes bound %d slack %d cost %d\n" % (plan.bound, plan.slack, plan.cost)):
        return "another verdict is printed"
    if plan.cost > 4 * plan.bound + plan.slack:
        return "the cost is not within four times the bound"
    if sum(flow.units for flow in plan.flows) <= SEARCHED and not plan.bound <= least_cost(plan.flows, plan.weights) <= plan.cost:
        return "a schedule costs less than the bound, or all cost more than the plan"
    return None


def main():
    count = int(sys.argv[1]) if len(sys.argv) > 1 else 600
    failed = 0
    with tempfile.TemporaryDirectory() as folder:
        for seed in range(count):
            trace = drawn(KINDS[seed % len(KINDS)], random.Random(seed))
            fault = fault_of(folder, *trace)
            if fault:
                print("trace %d: %s\n%s" % (seed, fault, trace_text(*trace[:2])))
                failed += 1
    print("%d passed, %d failed" % (count - failed, failed))
    return 1 if failed else 0


if __name__ == "__main__":
    sys.exit(main())
