#!/usr/bin/env python3
"""Serves drawn traces as they arrive, by a plain program that follows the definitions one by one, and compares what the built program prints for them; it lets that program check its texts, right ones and damaged ones.

Use: checks/plain_online.py [TRACES]       The last line is 'N passed, M failed'; the exit code is 0 where none failed.
     checks/plain_online.py --print SEED   Prints the trace of that number, its weights, the options and the text.

The built program must make the same text of each trace, say yes to it, and give damaged ones the first reason that the plain program finds, or the first line that is bad. Where a trace has few units, the least cost of
all schedules that serve nobody before its arrival is found by search: it is neither below the total nor above the cost.
"""
import random
import re
import subprocess
import sys
import tempfile
from collections import namedtuple

from online_runs import Instance, append, facts_of, first_reason, least_cost, online_of, text_of
from plain_plan import PROGRAM, Coflow, flows_of, up, weights_text, write

SEARCHED = 9  # up to so many units the best schedule is searched for
DAMAGES, BAD_TEXTS = 6, 3  # so many damages of what a text says, and of how it is written, are tried on each

# Damages


def one_of(items, r, change):
    """The items, where one of them is changed, or gone where the change is None."""
    k = r.randrange(len(items))
    new = change(items[k])
    return [*items[:k], *([] if new is None else [new]), *items[k + 1 :]]


def other_total(facts, online, r):
    return online._replace(total=max(0, online.total + r.choice([1, -1, 2**40])))


def other_cost(facts, online, r):
    return online._replace(cost=online.cost + r.choice([1, 2**64]))


def other_release(facts, online, r):
    if not online.release:
        return None
    changes = [
        lambda it: it._replace(y=it.y + 1),
        lambda it: it._replace(y=it.y // 2),
        lambda it: it._replace(z=it.z + 1),
        lambda it: it._replace(z=it.z // 2),
        lambda it: it._replace(z=2**128 - 1),
        lambda it: it._replace(port=(it.port[0], facts.ports + r.randrange(2))),
        lambda it: it._replace(port=(1 - it.port[0], it.port[1])),
        lambda it: it._replace(ident=r.choice(facts.idents)),
        lambda it: it._replace(ident=r.randrange(2**32)),
        lambda it: None,
    ]
    return online._replace(release=one_of(online.release, r, r.choice(changes)))


def other_places(facts, online, r):
    """The same places in another order, or one of them twice."""
    release = list(online.release)
    if not release:
        return None
    if r.random() < 0.5:
        release.append(r.choice(release))
    else:
        r.shuffle(release)
    return online._replace(release=release)


def other_done(facts, online, r):
    if not online.done:
        return online._replace(done=[(r.randrange(9), 0)])
    changes = [
        lambda it: (it[0], it[1] + 1),
        lambda it: (it[0], it[1] // 2),
        lambda it: (r.choice(facts.idents), it[1]),
        lambda it: None,
    ]
    done = one_of(online.done, r, r.choice(changes))
    return online._replace(done=done + done[: r.choice([0, 0, 1])])


def other_runs(facts, online, r):
    """Runs that are gone, longer, exchanged or of other flows."""
    if not online.runs:
        return None
    changes = [
        lambda it: None,
        lambda it: (it[0] + 1, it[1]),
        lambda it: (it[0], it[1][1:]),
        lambda it: (it[0], sorted({*it[1], r.randrange(len(facts.flows) + 2)})),
        lambda it: (it[0], sorted({*it[1], r.randrange(len(facts.flows))} if facts.flows else it[1])),
    ]
    runs = list(online.runs)
    if r.random() < 0.4:
        r.shuffle(runs)
    else:
        runs = one_of(runs, r, r.choice(changes))
    kept = []
    for length, granted in runs:
        append(kept, length, granted)
    return online._replace(runs=kept)


def other_epochs(facts, online, r):
    """Of the publishings nothing is asked."""
    return online._replace(epochs=[epoch._replace(places=[it._replace(y=7) for it in epoch.places][1:], bound=99) for epoch in online.epochs][1:])


def alike(facts, online, r):
    """Two damages at once."""
    first = r.choice(OTHERS)(facts, online, r)
    return first and r.choice(OTHERS)(facts, first, r)


OTHERS = [other_total, other_cost, other_release, other_places, other_done, other_runs, other_epochs]


def bad_text(text, r):
    """The text written in another way, and the first line that is bad then."""
    lines = text.split("\n")[:-1]
    k = r.randrange(1, len(lines))
    word = lines[k].split(" ")[0]
    ways = [
        (lines[:k], k + 1),
        (lines[:k] + [lines[k] + " "] + lines[k + 1 :], k + 1),
        (lines[:k] + [lines[k] + "\r"] + lines[k + 1 :], k + 1),
        (lines[:k] + [""] + lines[k:], k + 1),
        (lines + [""], len(lines) + 1),
        (lines + ["end"], len(lines) + 1),
    ]
    if word != "end":
        ways.append((lines[:k] + [re.sub(r" (\d)", r" 0\1", lines[k], count=1)] + lines[k + 1 :], k + 1))
        ways.append((lines[:k] + [re.sub(r" \d+", r" %d" % 2**128, lines[k], count=1)] + lines[k + 1 :], k + 1))
    if word in ("place", "release"):
        ways.append((lines[:k] + [re.sub(r" (\d+)", lambda it: " %d" % (int(it[1]) + 1), lines[k], count=1)] + lines[k + 1 :], k + 1))
    if word in ("run", "cost", "total", "bound", "epoch"):
        # a run that is the same as the one before, a second total, or a publishing that comes at no later time
        ways.append((lines[: k + 1] + lines[k:], k + 2))
    if word == "run":
        ways.append((lines[:k] + [re.sub(r" \d+", " 0", lines[k], count=1)] + lines[k + 1 :], k + 1))
    bad, line = r.choice(ways)
    return "\n".join(bad + [""]), line


# Drawn traces

Kind = namedtuple("Kind", "ports coflows locations megabytes parts weight unit slots")  # the greatest of each; a megabyte has so many parts; arrivals are up to so many slots

KINDS = [
    Kind(2, 4, 1, 3, 1, 4, 1, 5),  # few units, and many ties
    Kind(2, 2, 2, 4, 1, 4, 1, 5),
    Kind(4, 6, 3, 9, 1000, 9, 4, 30),  # sizes that are rounded up, and idle slots
    Kind(5, 6, 4, 2**30, 10**6, 2**32, 2**20, 2**12),  # great sizes, weights and units
    Kind(2, 3, 1, 6, 1, 2**32, 1, 2**32),  # arrivals that are far off
]


def drawn(kind, r):
    ports = r.randint(2, kind.ports)

    def size():
        return up(r.randint(0, kind.megabytes * kind.parts) * 10**6, kind.parts)

    idents = r.sample(range(2**32 if kind.parts > 1 else 9), r.choice([0, 1, *range(2, kind.coflows + 1), *range(2, kind.coflows + 1), *range(2, kind.coflows + 1)]))
    coflows = [
        Coflow(
            ident,
            [r.randrange(ports) for _ in range(r.randint(1, kind.locations))],
            [(r.randrange(ports), size()) for _ in range(r.choice([0, *range(1, kind.locations + 1), *range(1, kind.locations + 1), kind.locations]))],
            r.randint(1, kind.weight),
        )
        for ident in idents
    ]
    unit, slot_ms = r.randint(1, kind.unit), r.randint(1, 10)
    milliseconds = [r.choice([0, r.randrange(min(2**32, kind.slots * slot_ms))]) for _ in coflows]
    units = sum(flow.units for flow in flows_of(coflows, unit))
    return Instance(ports, coflows, milliseconds, unit, slot_ms, r.randint(1, 6) if units < 200 else up(units, r.randint(1, 20)))


def trace_text(instance):
    lines = ["%d %d" % (instance.ports - 1, len(instance.coflows))]
    for coflow, milliseconds in zip(instance.coflows, instance.milliseconds):
        sizes = ["%d:%d.%06d" % (location, *divmod(millionths, 10**6)) for location, millionths in coflow.reducers]
        lines.append(" ".join(map(str, [coflow.ident, milliseconds, len(coflow.mappers), *coflow.mappers, len(sizes), *sizes])))
    return "\n".join(lines) + "\n"


def options_of(instance):
    return ["--weights", "weights", "--unit", str(instance.unit), "--slot-ms", str(instance.slot_ms), "--epoch", str(instance.every)]


# A coflow of 6 units, and one of 1 unit that arrives two slots later, with a publishing each four slots: worked out by hand.
WORKED = Instance(3, [Coflow(1, [0], [(1, 6 * 10**6)], 1), Coflow(2, [0], [(1, 10**6)], 1)], [0, 16], 1, 8, 4)
WORKED_TEXT = """sincronia online 2
epoch 0
place 1 1 in 0 183251937962
bound 6
epoch 4
place 1 2 in 0 549755813888
place 2 1 in 0 549755813888
bound 4
done 1 7
done 2 5
cost 12
release 1 2 in 0 0 916259689814
release 2 1 in 0 183251937962 4
total 10
run 4 0
run 1 1
run 2 0
end
"""


# The comparison


def ran(folder, words):
    """The exit code, the standard output and the standard error of the built program."""
    ended = subprocess.run([PROGRAM, *words], cwd=folder, stdin=subprocess.DEVNULL, capture_output=True, timeout=60)
    return ended.returncode, ended.stdout.decode(), ended.stderr.decode()


def fault_of(folder, instance, r, seen):
    """What is wrong with what the built program says of a trace, or None."""
    facts, online = facts_of(instance), online_of(instance)
    text, options = text_of(online), options_of(instance)
    write(folder, "trace", trace_text(instance))
    write(folder, "weights", weights_text(instance.coflows))
    if ran(folder, ["online", "trace", *options]) != (0, text, ""):
        return "another text is printed"

    def told(written):
        write(folder, "report", written)
        return ran(folder, ["check", "trace", "report", *options])

    if first_reason(facts, online) != "yes total %d cost %d" % (online.total, online.cost):
        return "this program refuses its own text"
    if told(text) != (0, "yes total %d cost %d\n" % (online.total, online.cost), ""):
        return "there is no yes"
    if sum(flow.units for flow in facts.flows) <= SEARCHED and max(facts.times, default=0) < 40:
        seen["searched"] = seen.get("searched", 0) + 1
        if not online.total <= least_cost(facts) <= online.cost:
            return "a schedule costs less than the total, or all cost more than the run"
    for _ in range(DAMAGES):
        damaged = r.choice([*OTHERS, alike])(facts, online, r)
        if damaged is None:
            continue
        want = first_reason(facts, damaged)
        seen[" ".join(want.split(" ")[:2])] = seen.get(" ".join(want.split(" ")[:2]), 0) + 1
        have = told(text_of(damaged))
        if have != (0 if want.startswith("yes") else 1, want + "\n", ""):
            return "wanted %r, have %r, for\n%s" % (want, have, text_of(damaged))
    for _ in range(BAD_TEXTS):
        bad, line = bad_text(text, r)
        have = told(bad)
        if have != (5, "", "sincronia: report: line %d\n" % line):
            return "wanted line %d, have %r, for\n%s" % (line, have, bad)
    return None


# Each reason that a drawn text must have at least once, or this program tests less than it says.
REASONS = ["searched", "yes total", "no order", "no port", "no infeasible", "no total", "no flow", "no clash", "no units", "no early", "no listed", "no done", "no cost"]


def print_one(seed):
    instance = drawn(KINDS[seed % len(KINDS)], random.Random(seed))
    print(trace_text(instance) + weights_text(instance.coflows) + " ".join(options_of(instance)) + "\n" + text_of(online_of(instance)), end="")


def main():
    if sys.argv[1:2] == ["--print"]:
        print_one(int(sys.argv[2]))
        return 0
    count = int(sys.argv[1]) if len(sys.argv) > 1 else 400
    failed, seen = 0, {}
    with tempfile.TemporaryDirectory() as folder:
        for seed in range(-1, count):
            r = random.Random(seed)
            instance = WORKED if seed < 0 else drawn(KINDS[seed % len(KINDS)], r)
            fault = fault_of(folder, instance, r, seen)
            if seed < 0 and text_of(online_of(instance)) != WORKED_TEXT:
                fault = "this program makes another text than was worked out by hand"
            if fault:
                print("trace %d: %s\n%s%s" % (seed, fault, trace_text(instance), " ".join(options_of(instance))))
                failed += 1
    missing = [reason for reason in REASONS if reason not in seen]
    if missing:
        print("never drawn: %s" % ", ".join(missing))
        failed += 1
    print("%d passed, %d failed" % (count + 1 - failed, failed))
    return 1 if failed else 0


if __name__ == "__main__":
    sys.exit(main())
