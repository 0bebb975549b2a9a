#!/usr/bin/env python3
"""Draws policies side by side by the built program, and compares the text of each picture, byte for byte, with what a plain program makes of the trace by the definitions.

Use: checks/plain_policies.py [TRACES]    The last line is 'N passed, M failed'; the exit code is 0 where none failed.
     checks/plain_policies.py --write     writes docs/policies.svg, the picture of traces/hour-60.txt, and that trace anew.

The traces are drawn: their weights, arrivals and sizes of a unit too. A trace without units has no picture and is refused. A picture must be XML in which no two labels overlap; where
`rsvg-convert` is there, it renders each one. The picture of a worked trace is the one that was worked out by hand, and logarithms by whole numbers lie beside those of the library. Refusals of words
and of files are tried, and docs/policies.svg is compared with what the built program draws of traces/hour-60.txt.
"""
import math
import os
import random
import re
import sys
import tempfile

sys.dont_write_bytecode = True
sys.path.insert(0, os.path.join(os.path.dirname(os.path.dirname(os.path.abspath(__file__))), "bench"))
import traces
from plain_compare import TWO, Learning, arriving, bottlenecks, by_key, cost_of
from plain_picture import PROGRAM, RENDERER, crowded, ran, renders
from plain_plan import KINDS, TOP, bound_and_slack, certificate, drawn, flows_of, trace_text, up, weights_text, write
from plain_stats import percentile

SHOWN = os.path.join(TOP, "docs", "policies.svg")
TRACE = os.path.join(TOP, "traces", "hour-60.txt")
UNIT = "16"  # the megabytes of a unit of the picture that the pages show

# The policies


def ratios(flows, ports, weights):
    """Bottleneck over weight in parts of 2^64, rounded down; a coflow without weight comes behind all that have one."""
    return [2**64 * most // weight if weight else 2**105 for most, weight in zip(bottlenecks(flows, ports, len(weights)), weights)]


def policies_of(flows, weights, arrivals, ports, order):
    """The name, the cost and the completions of each policy's second round."""
    answers = [
        ("bssi", order),
        ("wsebf", by_key(ratios(flows, ports, weights))),
        ("sebf", by_key(bottlenecks(flows, ports, len(weights)))),
        ("fifo", by_key(arrivals)),
    ]
    learning = Learning(len(weights))
    done = cost_of(flows, weights, learning.rank(len(weights)))[1]
    for coflow in by_key(done):
        learning.note(coflow, done[coflow])
    answers.append(("attained", learning.rank(len(weights))))
    return [(name, *cost_of(flows, weights, answer)) for name, answer in answers]


# The picture

LOOKS = [
    " stroke-width='2' stroke='#000000'/>",
    " stroke-width='2' stroke='#0072b2' stroke-dasharray='9 3'/>",
    " stroke-width='2' stroke='#d55e00' stroke-dasharray='3 3'/>",
    " stroke-width='2' stroke='#009e73' stroke-dasharray='9 3 2 3'/>",
    " stroke-width='2' stroke='#cc79a7' stroke-dasharray='1 2'/>",
]


def log_of(above, below):
    """The binary logarithm of a quotient that is at least 1, in parts of 1024, by squaring a number from 1 to 2 in parts of 2^31."""
    whole = 0
    while below * 2 ** (whole + 1) <= above:
        whole += 1
    part, bits = above * 2**31 // (below * 2**whole), 0
    for _ in range(10):
        square = part * part
        part = square // 2**31
        bits *= 2
        if part >= 2**32:
            part, bits = square // 2**32, bits + 1
    return 1024 * whole + bits


def step_of(count):
    """1, 2 or 5 times a power of ten, so that at most six steps are on an axis with so many places."""
    return next(step for power in range(20) for step in (10**power, 2 * 10**power, 5 * 10**power) if count <= 6 * step)


def label(x, y, words, anchor=None, size=None):
    return "<text x='%d' y='%d'%s%s>%s</text>" % (x, y, " text-anchor='%s'" % anchor if anchor else "", " font-size='%d'" % size if size else "", words)


def ticks(powers, base, end, at):
    """The marks and the numbers of powers, or of some of them where there are many."""
    lines = []
    for power in range(0, powers + 1, step_of(powers)):
        lines.append("<rect x='%d' y='%d' width='1' height='5'/>" % (at(power), end) + label(at(power), end + 18, base**power, "middle"))
    return lines


def bars(bound, policies):
    if bound == 0:
        return [label(430, 160, "the bound says nothing", "middle")]
    octaves = max(1, up(log_of(max(cost for _, cost, _ in policies), bound), 1024))
    lines = []
    for place, (_, cost, _) in enumerate(policies):
        width, top = min(720, log_of(cost, bound) * 720 // (1024 * octaves)), 80 + 30 * place
        lines.append("<rect x='70' y='%d' width='%d' height='16' fill='#dddddd'%s" % (top + 7, width, LOOKS[place]))
        ratio = "%d.%02d" % divmod(up(100 * cost, bound), 100)
        lines.append(label(76 + width, top + 19, ratio) if width <= 360 else label(64 + width, top + 19, ratio, "end"))
    lines += ticks(octaves, 2, 230, lambda power: 70 + power * 720 // octaves)
    return lines + [label(430, 266, "cost over bound", "middle"), label(70, 70, "no schedule is left of here"), "<path d='M70 74V230' stroke='#000000' stroke-width='3'/>"]


def curves(policies, count):
    last = max(max(done) for _, _, done in policies)
    decades = len(str(last - 1))
    end = log_of(10**decades, 1)

    def at(slot):
        return 70 + min(720, log_of(slot, 1) * 720 // end)

    lines = []
    for place, (_, _, done) in enumerate(policies):
        served = sorted(slot for slot in done if slot > 0)
        steps = ["H%dV%d" % (at(slot), 550 - sum(it <= slot for it in served) * 240 // count) for slot in sorted(set(served))]
        lines.append("<path d='M70 550%sH790' fill='none'%s" % ("".join(steps), LOOKS[place]))
    lines += ["<rect x='70' y='310' width='720' height='240' fill='none' stroke='#000000'/>"]
    return lines + ticks(decades, 10, 550, lambda power: at(10**power)) + [label(430, 586, "slot", "middle"), label(62, 314, count, "end"), label(62, 554, 0, "end")]


def legend(policies):
    lines = []
    for place, (name, _, done) in enumerate(policies):
        top, served = 80 + 80 * place, [slot for slot in done if slot > 0]
        lines += ["<path d='M850 %dh24' fill='none'%s" % (top + 6, LOOKS[place]), label(884, top + 10, name)]
        lines.append(label(884, top + 26, "mean at most %d.%d" % divmod(up(10 * sum(served), len(served)), 10)))
        lines += [label(884, top + 42, "median %d" % percentile(50, served)), label(884, top + 58, "95 %% by %d" % percentile(95, served))]
    return lines


def picture_of(bound, policies):
    """The text of the picture."""
    count = sum(slot > 0 for slot in policies[0][2])
    lines = [
        "<svg xmlns='http://www.w3.org/2000/svg' version='1.1' width='1150' height='600' font-family='sans-serif' font-size='13'>",
        "<rect width='1150' height='600' fill='#ffffff'/>",
        label(70, 24, "policies on %d coflows, no schedule costs less than %d" % (count, bound), size=16),
        "<rect x='70' y='80' width='720' height='150' fill='none' stroke='#000000'/>",
        *bars(bound, policies),
        *(label(62, 80 + 30 * place + 19, name, "end") for place, (name, _, _) in enumerate(policies)),
        label(70, 300, "completed coflows"),
        *curves(policies, count),
        label(850, 70, "completion, in slots"),
        *legend(policies),
        "</svg>",
        "",
    ]
    return "\n".join(lines)


# The comparison


def refused(code, line):
    return code, "", "sincronia_picture: %s\n" % line


def fault_of(folder, ports, coflows, unit, r, seen):
    """What is wrong with the picture of a drawn trace, or None."""
    arrivals = [r.randrange(4) for _ in coflows]
    flows, weights = flows_of(coflows, unit), [coflow.weight for coflow in coflows]
    write(folder, "trace", arriving(trace_text(ports, coflows), arrivals))
    write(folder, "weights", weights_text(coflows))
    have = ran(folder, ["trace", "--policies", "--weights", "weights", "--unit", str(unit)])
    if not flows:
        seen.add("no units")
        return None if have == refused(2, "window: no slot from 1 to 0") else "a picture without units"
    entries = certificate(flows, weights, ports)
    bound = bound_and_slack(flows, weights, entries)[0]
    policies = policies_of(flows, weights, arrivals, ports, [entry.coflow for entry in entries])
    seen.update(["pictures"] + ["costs apart"] * (len({cost for _, cost, _ in policies}) > 2) + ["coflows without units"] * any(slot == 0 for slot in policies[0][2]))
    want = (0, picture_of(bound, policies), "")
    if have != want:
        return "have %d %s%s\nwant %s" % (have[0], have[2], have[1], want[1])
    if any(cost < bound for _, cost, _ in policies):
        return "a policy is below the bound"
    if not renders(have[1]):
        return "the renderer refuses the picture"
    return crowded(have[1])


# Worked out by hand: two coflows share both ports, with 3 units and with 1. Serving the shorter one first costs 1 + 4 = 5, which is the bound, and the longer one first 3 + 4 = 7. The logarithm of
# 1.4 is 0.4854, of 720 that makes 349. On the axis from slot 1 to slot 10, slot 3 lies at 343 of 720 and slot 4 at 433.
SHORT, LONG = "M70 550H70V430H503V310H790", "M70 550H413V430H503V310H790"
WORKED = {
    r"<rect x='70' y='\d+' width='(\d+)' height='16'": ["0", "0", "0", "349", "349"],
    r">(\d+\.\d\d)</text>": ["1.00", "1.00", "1.00", "1.40", "1.40"],
    r"<path d='(M70 550[^']*)'": [SHORT, SHORT, SHORT, LONG, LONG],
    r">mean at most ([0-9.]+)<": ["2.5", "2.5", "2.5", "3.5", "3.5"],
    r">median (\d+)<": ["1", "1", "1", "3", "3"],
    r">95 % by (\d+)<": ["4"] * 5,
    r">(policies on [^<]*)<": ["policies on 2 coflows, no schedule costs less than 5"],
    r" text-anchor='end'>([a-z]+)<": ["bssi", "wsebf", "sebf", "fifo", "attained"],
}
USAGE = "usage: sincronia_picture TRACE REPORT|--policies [--weights FILE] [--unit MEGABYTES] [--from SLOT] [--to SLOT] [--side in|out] [--slot-ms MILLISECONDS]"
REFUSALS = [
    (["t"], refused(2, USAGE)),
    (["--policies"], refused(2, USAGE)),
    (["t", "r", "--policies"], refused(2, USAGE)),
    (["t", "--policies", "--policies"], refused(2, USAGE)),
    (["t", "--policies=true"], refused(2, USAGE)),
    (["t", "--policies", "--from", "0"], refused(2, USAGE)),
    (["t", "--policies", "--side", "up"], refused(2, USAGE)),
    (["t", "--policies", "--unit", "0"], refused(2, USAGE)),
    (["t", "--policies", "--weights", "-"], refused(2, USAGE)),
    (["none", "--policies"], refused(2, "window: no slot from 1 to 0")),
    (["none", "--policies", "--from", "7"], refused(2, "window: no slot from 1 to 0")),
    (["bad", "--policies"], refused(3, "trace: line 2 field 2")),
    (["t", "--policies", "--weights", "bad-weights"], refused(4, "weights: line 1 field 2")),
]


def worked_faults(folder):
    """Each thing that was worked out by hand with what is wrong with it, or None."""
    write(folder, "t", TWO)
    write(folder, "none", "2 0\n")
    write(folder, "bad", "2 1\n1 x 1 0 1 1:3\n")
    write(folder, "bad-weights", "1 x\n")
    code, text, line = ran(folder, ["t", "--policies"])
    for pattern, want in WORKED.items():
        yield None if (code, line) == (0, "") and re.findall(pattern, text) == want else "%s: %s in place of %s" % (pattern, re.findall(pattern, text), want)
    for same in (["--from", "3"], ["--to", "1", "--side", "out"], ["--slot-ms", "5"]):
        yield None if ran(folder, ["t", "--policies", *same]) == (0, text, "") else "%s changes the picture of policies" % same
    for words, want in REFUSALS:
        have = ran(folder, words)
        yield None if have == want else "%s: %s in place of %s" % (words, have, want)


def log_faults(r):
    """The logarithms by whole numbers are those of the library, rounded down; one part less is let pass, since squares are rounded."""
    for _ in range(1000):
        below = r.randint(1, 2 ** r.randint(1, 60))
        above = below * r.randint(1, 2 ** r.randint(1, 30)) + r.randrange(below)
        want = 1024 * (math.log2(above) - math.log2(below))
        if not want - 2 < log_of(above, below) <= want + 0.001:
            return "the logarithm of %d over %d" % (above, below)
    return None


def shown_fault(folder):
    """Whether the trace and the picture of the pages are stale, or None."""
    with open(TRACE, "rb") as file:
        if file.read() != traces.hour(count=60, spread_out=True):
            return "traces/hour-60.txt is another trace"
    with open(SHOWN, encoding="utf-8") as file:
        return None if ran(folder, [TRACE, "--policies", "--unit", UNIT]) == (0, file.read(), "") else "docs/policies.svg is stale"


def main():
    if sys.argv[1:] == ["--write"]:
        with open(TRACE, "wb") as file:
            file.write(traces.hour(count=60, spread_out=True))
        with open(SHOWN, "w", encoding="utf-8") as file:
            file.write(ran(TOP, [TRACE, "--policies", "--unit", UNIT])[1])
        return 0
    count = int(sys.argv[1]) if len(sys.argv) > 1 else 60
    passed = failed = 0
    seen = set()
    with tempfile.TemporaryDirectory() as folder:
        faults = [*worked_faults(folder), shown_fault(folder), log_faults(random.Random(1))]
        for seed in range(count):
            r = random.Random(seed)
            fault = fault_of(folder, *drawn(KINDS[seed % len(KINDS)], r), r, seen)
            faults.append(fault and "trace %d: %s" % (seed, fault))
    for kind in ("pictures", "no units", "costs apart", "coflows without units"):
        faults.append(None if kind in seen or count < 60 else "no drawn trace has %s" % kind)
    for fault in faults:
        passed += fault is None
        failed += fault is not None
        if fault is not None:
            print(fault)
    if RENDERER is None:
        print("no renderer: pictures were not rendered")
    print("%d passed, %d failed" % (passed, failed))
    return 1 if failed else 0


if __name__ == "__main__":
    sys.exit(main())
