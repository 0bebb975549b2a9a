#!/usr/bin/env python3
"""Replays drawn traces under each ranker by a plain program that follows the definitions one by one, and compares its texts with what `replay` of the built program prints.

Use: checks/plain_replay.py [TRACES]             The last line is 'N passed, M failed'; the exit code is 0 where none failed.
     checks/plain_replay.py --plain [TRACES]     compares the plain program with the one of `plain_online.py` and with worked texts alone; no built program is needed.
     checks/plain_replay.py --text TRACE [--policy NAME] [--weights FILE] [--unit MB] [--epoch SLOTS] [--slot-ms MS]     prints the text of the plain program.

Of each trace the row of `bssi` is the online run, the weighted arrivals are at most the total, and the total is at least that of the online run and at most each cost. Where a trace has few units, the least cost
of all schedules that serve nobody before its arrival is found by search: it is neither below the total nor above a cost. The record of one ranker is compared too: `check` says yes to it, and that of `bssi` is the
text of the online run but for the certificate. Then come worked texts, traces at the limit of orders, and words and files that are refused
as `online` refuses them.
"""
import random
import sys
import tempfile

sys.dont_write_bytecode = True  # the folder stays as it is

from online_runs import Instance, facts_of, least_cost, online_of
from online_runs import text_of as online_text
from plain_online import SEARCHED, Kind, drawn, options_of, ran, trace_text
from plain_compare import PAGES, shown
from plain_plan import TOP, Coflow, flows_of, up, weights_text, write
from plain_stats import value_in
from replay_runs import LIMIT, ORDERS, QUARTERS, UNKNOWN, bench, certified, cost_of, record_of, record_told, replays_of, runs_of, said_by, text_of, told_of

# Drawn traces

KINDS = [
    Kind(2, 3, 1, 3, 1, 4, 1, 6),  # few units, for the search
    Kind(3, 3, 2, 3, 1, 4, 1, 4),
    Kind(2, 6, 2, 4, 1, 2, 1, 12),  # many ties, and arrivals about as late as the load
    Kind(3, 6, 2, 6, 1, 9, 2, 20),
    Kind(4, 6, 3, 9, 1000, 9, 4, 200),  # sizes that are rounded up, and idle slots
    Kind(4, 6, 4, 2**30, 10**6, 2**32, 2**20, 2**12),  # great sizes, weights and units
    Kind(2, 3, 1, 6, 1, 2**32, 1, 2**32),  # arrivals that are far off
]


def drawn_here(seed, r):
    """A trace, and options that say it. Of some, coflows arrive at one of two times, or all use one port of a side; and an option may be left out, where it says what counts without it."""
    instance = drawn(KINDS[seed % len(KINDS)], r)
    coflows, milliseconds = instance.coflows, instance.milliseconds
    if r.random() < 0.3:
        times = r.sample(milliseconds, min(2, len(milliseconds)))
        milliseconds = [r.choice(times) for _ in milliseconds]
    if r.random() < 0.1:
        coflows = [coflow._replace(mappers=[0 for _ in coflow.mappers], reducers=[(0, size) for _, size in coflow.reducers]) for coflow in coflows]
    out = {option for option in ("--weights", "--unit", "--slot-ms", "--epoch") if r.random() < 0.2}
    if "--weights" in out:
        coflows = [coflow._replace(weight=1) for coflow in coflows]
    unit = 1 if "--unit" in out else instance.unit
    slot_ms = 8 if "--slot-ms" in out else r.choice([instance.slot_ms, instance.slot_ms, r.randint(1, 100)])
    units = sum(flow.units for flow in flows_of(coflows, unit))
    if units >= 20000:
        out.discard("--epoch")
    every = 1024 if "--epoch" in out else r.randint(1, 20) if units < 200 else up(units, r.randint(1, 20))
    instance = Instance(instance.ports, coflows, milliseconds, unit, slot_ms, every)
    said = options_of(instance)
    pairs = [pair for pair in zip(said[::2], said[1::2]) if pair[0] not in out]
    return instance, [word for pair in r.sample(pairs, len(pairs)) for word in pair]


# What is compared

# Each of these must be seen at least once, or this program tests less than it says.
SIGHTS = ["no coflow", "one port", "no units", "same time", "idle", "late", "searched", "rows differ", "above online"] + ["threshold %d/4" % quarters for quarters in QUARTERS]


def sights(instance, facts, online, replays):
    sending = {flow.coflow for flow in facts.flows}
    yield "threshold %d/4" % QUARTERS[replays.totals.index(max(replays.totals))]
    yield from (
        name
        for name, holds in [
            ("no coflow", not facts.times),
            ("one port", sending and all(flow.ingress == flow.egress == 0 for flow in facts.flows)),
            ("no units", len(sending) < len(facts.times)),
            ("same time", len({*facts.times} - {0}) < len([time for time in facts.times if time > 0])),
            ("idle", any(not granted for _, granted in online.runs)),
            ("late", any(time % instance.every for time in facts.times)),
            ("rows differ", len({row.cost for row in replays.rows}) > 3),
            ("above online", max(replays.totals) > online.total),
        ]
        if holds
    )


def wrong_numbers(instance, seen):
    """What is wrong with the numbers of the plain program, or None."""
    facts, online, replays = facts_of(instance), online_of(instance), replays_of(instance)
    total, costs = max(replays.totals), [row.cost for row in replays.rows]
    seen.update(sights(instance, facts, online, replays))
    if (replays.rows[0].runs, costs[0]) != (online.runs, online.cost):
        return "bssi serves otherwise than the online run"
    if certified(facts, 4) != online.release or replays.totals[QUARTERS.index(4)] != online.total:
        return "the certificate of the threshold 1 is not that of the online run"
    if not replays.arrivals <= total <= min(costs):
        return "the total is below the arrivals, or above a cost"
    if without_release(online_text(record_of(instance, bench()[0][1]))) != without_release(online_text(online)):
        return "the record of bssi is not the online run"
    if sum(flow.units for flow in facts.flows) <= SEARCHED and max(facts.times, default=0) < 40:
        seen.add("searched")
        if not total <= least_cost(facts) <= min(costs):
            return "a schedule costs less than the total, or all cost more than a row"
    return None


def without_release(text):
    """The lines of an online run but those of the certificate."""
    return [line for line in text.splitlines() if line.split()[0] not in ("release", "total")]


def record_fault(folder, instance, options, name):
    """What is wrong with the record of the ranker of this name, or None."""
    told = ran(folder, ["replay", "--policy", name, "trace", *options])
    if told != told_of(instance, name):
        return "another record is printed of " + name
    write(folder, "record", told[1])
    kept = [word for pair in zip(options[::2], options[1::2]) if pair[0] != "--epoch" for word in pair]
    verdict = "yes total %d cost %d\n" % (value_in(told[1], "total"), value_in(told[1], "cost"))
    if ran(folder, ["check", "trace", "record", *kept]) != (0, verdict, ""):
        return "check does not say yes to the record of " + name
    return None


def fault_of(folder, instance, options, seen):
    """What is wrong with what is said of a trace, or None. Without a folder the built program is not run."""
    wrong = wrong_numbers(instance, seen)
    if wrong or not folder:
        return wrong
    write(folder, "trace", trace_text(instance))
    write(folder, "weights", weights_text(instance.coflows))
    code, text, error = ran(folder, ["replay", "trace", *options])
    if (code, text, error) != told_of(instance):
        return "another text is printed"
    online = ran(folder, ["online", "trace", *options])[1]
    if value_in(text, "total") < value_in(online, "total") or "row 1 bssi cost %d" % value_in(online, "cost") not in text.splitlines():
        return "the total is below that of the online run, or bssi has another cost"
    return record_fault(folder, instance, options, bench()[len(text) % len(bench())][0])


# Worked texts, limits and refusals


def rows(*costs):
    return "".join("row %d %s cost %d\n" % (index, name, cost) for index, ((name, _), cost) in enumerate(zip(bench(), costs), 1))


SHARED = "1 3\n2 26 1 1 1 0:3\n8 27 1 1 1 0:1\n3 20 1 1 1 0:2\n"
LATER = "2 2\n1 0 1 0 1 1:6\n2 16 1 0 1 1:1\n"
# the record of a ranker on it, with the ids in its second order, the completions, the cost and the runs
RECORD = """sincronia online 2
epoch 0
place 1 1 in 0 183251937962
bound 6
epoch 4
place 1 %s in 0 549755813888
place 2 %s in 0 549755813888
bound 4
done 1 %s
done 2 %s
cost %s
release 1 2 in 0 0 916259689814
release 2 1 in 0 183251937962 4
total 10
%send
"""

# the words behind the name of the trace, the trace, the weights, and the text, which was worked out by hand
WORKED = [
    # One unit of the third coflow is served before the first order. Then 3, 1 and 1 units are left, and the second coflow or the third comes first, as weights tell.
    (["--weights", "weights", "--epoch", "4"], SHARED, "2 2\n8 2\n3 4\n", "sincronia replay 1\ntotal 50\narrivals 28\n" + rows(50, 52, 54, 66, 50) + "end\n"),
    (["--epoch", "4"], LATER, "", "sincronia replay 1\ntotal 10\narrivals 2\n" + rows(12, 12, 13, 13, 12) + "end\n"),
    # Without an order behind the first one, it is the order of joining that is served; in units of 2 megabytes that takes 3 slots and 1, and the second coflow arrives at time 4.
    ([], LATER, "", "sincronia replay 1\ntotal 10\narrivals 2\n" + rows(13, 13, 13, 13, 13) + "end\n"),
    (["--unit=2", "--slot-ms", "4"], LATER, "", "sincronia replay 1\ntotal 8\narrivals 4\n" + rows(8, 8, 8, 8, 8) + "end\n"),
    # fifo lets the first coflow go on; what the places charge is what the certificate of the order by bssi does.
    (["--epoch", "4", "--policy", "fifo"], LATER, "", RECORD % ("1", "2", "6", "7", "13", "run 6 0\nrun 1 1\n")),
    (["--epoch", "4", "--policy", "bssi"], LATER, "", RECORD % ("2", "1", "7", "5", "12", "run 4 0\nrun 1 1\nrun 2 0\n")),
    (["--policy=wsebf"], "2 0\n", "", "sincronia online 2\ncost 0\ntotal 0\nend\n"),
    ([], "2 0\n", "", "sincronia replay 1\ntotal 0\narrivals 0\n" + rows(0, 0, 0, 0, 0) + "end\n"),
    ([], "1 1\n7 80 1 0 1 0:0\n", "", "sincronia replay 1\ntotal 0\narrivals 0\n" + rows(0, 0, 0, 0, 0) + "end\n"),
]


def worked_fault(folder, built, words, trace, weights, text):
    """What is wrong with a worked text, or None."""
    write(folder, "trace", trace)
    write(folder, "weights", weights)
    if told_of(*said_by(folder, ["trace", *words])) != (0, text, ""):
        return "the plain program prints another text"
    if built and ran(folder, ["replay", "trace", *words]) != (0, text, ""):
        return "the built program prints another text"
    return None


class Scripted:
    """A ranker that gives these answers in turn, and keeps what it is told before each of them and after the last."""

    def __init__(self, *answers):
        self.answers, self.notes = list(answers), [[]]

    def rank(self, told):
        self.notes.append([])
        return self.answers.pop(0)

    def note(self, coflow, slot):
        self.notes[-1].append((coflow, slot))


def scripted_fault():
    """What is wrong with answers that are no orders, and with what a ranker is told, or None. Orders are published at the times 0 and 4. Before the second one the second and the fourth coflow end in slot 1, the first
    in slot 3."""
    coflows = [Coflow(1, [0], [(1, 3 * 10**6)], 1), Coflow(2, [1], [(0, 10**6)], 1), Coflow(3, [0], [(0, 4 * 10**6)], 1), Coflow(4, [2], [(2, 10**6)], 1)]
    instance = Instance(3, coflows, [0, 0, 0, 0], 1, 8, 4)
    order = [0, 1, 2, 3]
    wrong = [("late", Scripted(order, [3, 2, 3, 2])), ("strange", Scripted([0, 4, 1, 2]))]
    if text_of(replays_of(instance, wrong)).splitlines()[3:5] != ["row 1 late unfit 2 3", "row 2 strange unfit 1 2"]:
        return "an answer that is no order is told otherwise"
    told = "sincronia replay 1\ntotal 12\narrivals 0\nrow 1 late unfit 2 3\nend\n"
    if record_told(instance, "late", Scripted(order, [3, 2, 3, 2])) != (1, told, ""):
        return "the record of a ranker whose answer is no order is another"
    ranker = Scripted(order, order)
    if cost_of(facts_of(instance), runs_of(instance, ranker)) != 3 + 1 + 7 + 1:
        return "the order is served otherwise"
    if ranker.notes != [[], [(1, 1), (3, 1), (0, 3)], []]:
        return "the ranker is told otherwise"
    return None


def chain(length):
    """Coflows of so many units, each of which shares a port with the next one. All join at time 1. Those of the ends arrive first, so that fifo serves the other two one by one, and takes three times the length; an
    order that begins with the first and the third takes twice the length."""
    ends = [(0, 0), (0, 1), (1, 1), (1, 2)]
    coflows = [Coflow(number, [ingress], [(egress, length * 10**6)], 1) for number, (ingress, egress) in enumerate(ends, 1)]
    return Instance(3, coflows, [1, 3, 4, 2], 1, 8, 1)


def lone(length):
    return Instance(2, [Coflow(1, [0], [(1, length * 10**6)], 1)], [0], 1, 8, 1)


# what is tried, the trace, and what is told
LIMITS = [
    ("as many orders as may be", lone(ORDERS), (0, "sincronia replay 1\ntotal 8192\narrivals 0\n" + rows(*[ORDERS] * 5) + "end\n", "")),
    ("an order more", lone(ORDERS + 1), LIMIT),
    ("an order more of fifo alone", chain(ORDERS // 3 + 1), LIMIT),
]


def limit_fault(folder, built, instance, told):
    if told_of(instance) != told:
        return "the plain program tells otherwise"
    write(folder, "trace", trace_text(instance))
    write(folder, "weights", weights_text(instance.coflows))
    if built and ran(folder, ["replay", "trace", *options_of(instance)]) != told:
        return "the built program tells otherwise"
    return None


# words behind the command; of the files `trace` is right, `wrong` is neither a trace nor weights, and `absent` is not there
REFUSED = [
    *([], ["trace", "trace"], [""], ["-"], ["-x"], ["--", "trace", "--unit"]),
    *(["trace", option, value] for option, most in (("--unit", 2**20), ("--epoch", 2**40), ("--slot-ms", 2**20), ("--agents", 64)) for value in ("0", str(most + 1), "-1", "x", "")),
    *(["trace", "--policy", value] for value in ("", "Bssi", "a1", "bssi ", "a" * 17)),
    *(["trace", option] for option in ("--unit", "--epoch", "--slot-ms", "--weights", "--policy", "--epochs=1", "--weights=", "-e")),
    *(["trace", option + "=1", option, "1"] for option in ("--unit", "--epoch", "--slot-ms", "--weights")),
    ["trace", "--policy=bssi", "--policy", "bssi"],
    *(["absent"], ["wrong"], ["trace", "--weights", "absent"], ["trace", "--weights", "wrong"], ["wrong", "--weights", "absent"], ["wrong", "--epoch=0"]),
]


def refused_fault(folder, words):
    """What is wrong with how the built program refuses words and files, or None."""
    write(folder, "trace", LATER)
    write(folder, "wrong", "1 x\n")
    told = ran(folder, ["online", *words])
    if told[0] < 2 or ran(folder, ["replay", *words]) != told:
        return "online refuses otherwise: %r" % (told,)
    return None


# words behind the command that name no ranker of the bench, which is told before a file is looked at
STRANGERS = [["trace", "--policy", "bss"], ["absent", "--policy=wsebfs"], ["wrong", "--weights", "absent", "--policy", "a" * 16]]


def stranger_fault(folder, words):
    """What is wrong with how the built program tells that there is no ranker of a name, or None."""
    write(folder, "trace", LATER)
    write(folder, "wrong", "1 x\n")
    told = ran(folder, ["replay", *words])
    return None if told == UNKNOWN else "another answer: %r" % (told,)


def shown_faults(built):
    """What the pages show of `replay`."""
    for (_, *words), text in (command for page in PAGES for command in shown(page)):
        if words[:1] == ["replay"]:
            wrong = told_of(*said_by(TOP, words[1:])) != (0, text, "") or (built and ran(TOP, words) != (0, text, ""))
            yield " ".join(words), "a page shows another text" if wrong else None


def faults(folder, built, count):
    """The name of each thing that is tried, and what is wrong with it, or None."""
    for words, trace, weights, text in WORKED:
        yield "worked " + " ".join(words) + "\n" + trace, worked_fault(folder, built, words, trace, weights, text)
    yield "scripted rankers", scripted_fault()
    for name, instance, told in LIMITS:
        yield name, limit_fault(folder, built, instance, told)
    for words in REFUSED if built else []:
        yield "words %r" % (words,), refused_fault(folder, words)
    for words in STRANGERS if built else []:
        yield "words %r" % (words,), stranger_fault(folder, words)
    seen = set()
    for seed in range(count):
        instance, options = drawn_here(seed, random.Random(seed))
        fault = fault_of(folder if built else None, instance, options, seen)
        yield "trace %d: %s\n%s%s" % (seed, " ".join(options), trace_text(instance), weights_text(instance.coflows)), fault
    missing = [sight for sight in SIGHTS if sight not in seen]
    yield "sights", "never drawn: " + ", ".join(missing) if missing else None


def main():
    words = sys.argv[1:]
    if words[:1] == ["--text"]:
        code, text, error = told_of(*said_by("", words[1:]))
        print(text, end="")
        print(error, end="", file=sys.stderr)
        return code
    built = words[:1] != ["--plain"]
    words = words if built else words[1:]
    passed = failed = 0
    with tempfile.TemporaryDirectory() as folder:
        for name, fault in [*shown_faults(built), *faults(folder, built, int(words[0]) if words else 300)]:
            if fault:
                print("%s\n%s" % (fault, name))
            passed, failed = passed + (fault is None), failed + (fault is not None)
    print("%d passed, %d failed" % (passed, failed))
    return 1 if failed else 0


if __name__ == "__main__":
    sys.exit(main())
