"""A plain program of replays, for `plain_replay.py`: the rankers, how each serves a trace as it arrives, the total that is certified for all schedules, and the texts, by the definitions one by one."""
import argparse
import os
from collections import namedtuple
from fractions import Fraction

import online_runs
from online_runs import Epoch, Instance, Online, Release, append, facts_of, ports_of, published, total_of
from plain_compare import ROOM, Learning, bottlenecks, by_key, read_trace
from plain_plan import ONE, certificate, completions, grants, load

ORDERS = 8192  # the most that a run may publish
LIMIT = (7, "", "sincronia: limit: epochs %d\n" % (ORDERS + 1))
UNKNOWN = (13, "", "sincronia: policy: no ranker of this name\n")
QUARTERS = [0, 2, 3, 4, 6, 8]  # the thresholds, in quarters of a load; that of `online` is 4

# Rankers

Told = namedtuple("Told", "ports flows weights arrivals")  # the flows with what is left of those of present coflows, and the arrivals in milliseconds


class Fixed:
    """A ranker that takes no notice of notes."""

    def __init__(self, answer):
        self.rank = answer

    def note(self, coflow, slot):
        pass


class Attained(Learning):
    def rank(self, told):
        return super().rank(len(told.weights))


def needs(told):
    return bottlenecks(told.flows, told.ports, len(told.weights))


def bench():
    """The rankers, which were told nothing."""
    return [
        ("bssi", Fixed(lambda told: [entry.coflow for entry in certificate(told.flows, told.weights, told.ports)])),
        ("sebf", Fixed(lambda told: by_key(needs(told)))),
        ("fifo", Fixed(lambda told: by_key(told.arrivals))),
        ("attained", Attained(ROOM)),
        ("wsebf", Fixed(lambda told: by_key([Fraction(most, weight) for most, weight in zip(needs(told), told.weights)]))),
    ]


# The run of a ranker


class TooMany(Exception):
    """More orders would be published than a run may."""


class Unfit(Exception):
    """The publishing, from 1, whose answer is no order, and its first place, from 1, that is wrong."""


def require_order(answer, coflows, asked):
    for place, coflow in enumerate(answer, 1):
        if coflow not in range(coflows) or coflow in answer[: place - 1]:
            raise Unfit(asked, place)


def tell(ranker, news, ends):
    for coflow in sorted(news, key=lambda c: (ends[c], c)):
        ranker.note(coflow, ends[coflow])


def told_epoch(facts, time, present, left, line):
    """What is told of an order: its coflows that are present, each with what the certificate of what is left charges for it, and the bound of this certificate."""
    _, places, bound = published(facts, sorted(present), left)
    charges = {place.ident: place for place in places}
    return Epoch(time, [charges[facts.idents[c]] for c in line], bound)


def runs_of(instance, ranker, epochs=None):
    """The runs of equal slots: at each time the first thing that is to be done. The orders are put into `epochs`, where it is a list."""
    facts, every = facts_of(instance), instance.every
    coflows = range(len(facts.times))
    left, runs, line = [flow.units for flow in facts.flows], [], []
    joined, gone, noted = set(), set(), set()
    time, last, asked = 0, None, 0
    while True:
        owing = {flow.coflow for flow, units in zip(facts.flows, left) if units > 0}
        waiting = [c for c in coflows if c not in joined]
        arrived = [c for c in waiting if facts.times[c] <= time]
        present = joined - gone
        due = present & owing and time % every == 0 and last != time
        if arrived:
            first = min(arrived, key=lambda c: (facts.times[c], c))
            joined.add(first)
            line.append(first)
        elif due and present - owing:
            gone.add(min(present - owing))
        elif due:
            if asked == ORDERS:
                raise TooMany
            if asked > 0:
                tell(ranker, joined - owing - noted, completions(facts.flows, len(coflows), runs))
                noted = joined - owing
            asked, last = asked + 1, time
            owed = [flow._replace(units=units) for flow, units in zip(facts.flows, left) if flow.coflow in present]
            answer = ranker.rank(Told(facts.ports, owed, facts.weights, instance.milliseconds))
            require_order(answer, len(coflows), asked)
            line = [c for c in answer if c in present]
            if epochs is not None:
                epochs.append(told_epoch(facts, time, present, left, line))
        elif present & owing:
            granted = grants(facts.flows, line, left)
            stops = [time - time % every + every] + [facts.times[c] for c in waiting]
            length = min([stop - time for stop in stops] + [left[number] for number in granted])
            for number in granted:
                left[number] -= length
            append(runs, length, granted)
            time += length
        elif waiting:
            arrival = min(facts.times[c] for c in waiting)
            append(runs, arrival - time, [])
            time = arrival
        else:
            return runs


def cost_of(facts, runs):
    return sum(weight * end for weight, end in zip(facts.weights, completions(facts.flows, len(facts.weights), runs)))


# The total


def certified(facts, quarters):
    """The released certificate of a threshold. From the last place on: the port with the most load of the front, the first one of these, and the coflow of the front that arrives last, the greatest one of these.
    Where there is no load, all arrivals are late (the threshold 0), or that coflow arrives later than the threshold's part of the load, it takes the place and pays nothing for load. Else the place goes to the coflow
    with the least residual for each unit of load there, the greatest one of these, which pays for each unit what its residual allows, rounded down; so does the front. It pays the rest for its earliest end."""
    front, rest, places = list(range(len(facts.times))), [weight * ONE for weight in facts.weights], []
    while front:
        loads = {port: [load(facts.flows, c, port) for c in range(len(facts.times))] for port in ports_of(facts.ports)}
        port = max(loads, key=lambda port: sum(loads[port][c] for c in front))
        units = loads[port]
        most = sum(units[c] for c in front)
        placed, y = max(front, key=lambda c: (facts.times[c], c)), 0
        if most > 0 and quarters > 0 and 4 * facts.times[placed] <= quarters * most:
            placed = min((c for c in front if units[c] > 0), key=lambda c: (Fraction(rest[c], units[c]), -c))
            y = rest[placed] // units[placed]
        for c in front:
            rest[c] -= y * units[c]
        places.append(Release(facts.idents[placed], port, y, rest[placed]))
        front.remove(placed)
    return places[::-1]


# The text

Replays = namedtuple("Replays", "totals arrivals rows")  # the totals of the thresholds, and a row for each ranker
Row = namedtuple("Row", "name runs cost unfit")  # the cost of the runs, or the publishing and the place at which an answer was no order


def row_of(instance, name, ranker):
    try:
        runs = runs_of(instance, ranker)
        return Row(name, runs, cost_of(facts_of(instance), runs), None)
    except Unfit as unfit:
        return Row(name, None, None, unfit.args)


def replays_of(instance, rankers=None):
    facts = facts_of(instance)
    totals = [total_of(facts, certified(facts, quarters)) for quarters in QUARTERS]
    sending = {flow.coflow for flow in facts.flows}
    arrivals = sum(facts.weights[c] * facts.times[c] for c in sending)
    return Replays(totals, arrivals, [row_of(instance, *it) for it in (bench() if rankers is None else rankers)])


def text_of(replays):
    lines = ["sincronia replay 1", "total %d" % max(replays.totals), "arrivals %d" % replays.arrivals]
    for index, row in enumerate(replays.rows, 1):
        lines.append("row %d %s " % (index, row.name) + ("unfit %d %d" % row.unfit if row.unfit else "cost %d" % row.cost))
    return "\n".join(lines + ["end", ""])


def record_of(instance, ranker):
    """The record of the replay of a ranker, in the form of an online run, with the first of the released certificates that has the greatest total."""
    facts, epochs = facts_of(instance), []
    runs = runs_of(instance, ranker, epochs)
    release = max((certified(facts, quarters) for quarters in QUARTERS), key=lambda places: total_of(facts, places))
    ends = completions(facts.flows, len(facts.weights), runs)
    return Online(epochs, list(zip(facts.idents, ends)), cost_of(facts, runs), release, total_of(facts, release), runs)


def record_told(instance, name, ranker):
    """The exit code and the text of the record: where an answer is no order, the text of the replay of this ranker alone."""
    try:
        return 0, online_runs.text_of(record_of(instance, ranker)), ""
    except Unfit as unfit:
        replays = replays_of(instance, [])._replace(rows=[Row(name, None, None, unfit.args)])
        return 1, text_of(replays), ""


def told_of(instance, policy=None):
    """The exit code, the standard output and the standard error of the program, where it replays all rankers, or records that of this name."""
    try:
        if policy is None:
            return 0, text_of(replays_of(instance)), ""
        named = dict(bench())
        return record_told(instance, policy, named[policy]) if policy in named else UNKNOWN
    except TooMany:
        return LIMIT


def said_by(folder, words):
    """The instance and the policy, or None, that the words behind `replay` say, of files without faults in the folder."""
    parser = argparse.ArgumentParser(prog="plain_replay.py --text", allow_abbrev=False)
    parser.add_argument("trace")
    parser.add_argument("--weights")
    parser.add_argument("--policy")
    for name, value in (("--unit", 1), ("--epoch", 1024), ("--slot-ms", 8)):
        parser.add_argument(name, type=int, default=value)
    said = parser.parse_args(words)
    with open(os.path.join(folder, said.trace), encoding="ascii") as file:
        ports, coflows, milliseconds = read_trace(file.read())
    if said.weights:
        with open(os.path.join(folder, said.weights), encoding="ascii") as file:
            weights = dict(map(int, line.split()) for line in file if line.split())
        coflows = [coflow._replace(weight=weights.get(coflow.ident, 1)) for coflow in coflows]
    return Instance(ports, coflows, milliseconds, said.unit, said.slot_ms, said.epoch), said.policy
