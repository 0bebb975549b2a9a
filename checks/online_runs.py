"""A plain program of online runs, for `plain_online.py`: how a trace is served as it arrives, its certificate and its text, by the definitions one by one; the verdict on a text, whoever
made it; and the least cost of all schedules that serve nobody before its arrival, by search."""
import functools
import itertools
from collections import namedtuple

from plain_plan import ONE, bound_and_slack, certificate, completions, flows_of, grants, load, up

Instance = namedtuple("Instance", "ports coflows milliseconds unit slot_ms every")  # arrivals in milliseconds, and the slots of an epoch
# What a text says. Places have an id, a port as its side and its number, and y; those of a release also z.
Online = namedtuple("Online", "epochs done cost release total runs")
Epoch = namedtuple("Epoch", "time places bound")
Place = namedtuple("Place", "ident port y")
Release = namedtuple("Release", "ident port y z")
# What is needed of an instance to judge a text.
Facts = namedtuple("Facts", "ports idents flows weights times")


def facts_of(instance):
    """A coflow arrives at its milliseconds over those of a slot, rounded up."""
    return Facts(
        instance.ports,
        [coflow.ident for coflow in instance.coflows],
        flows_of(instance.coflows, instance.unit),
        [coflow.weight for coflow in instance.coflows],
        [up(milliseconds, instance.slot_ms) for milliseconds in instance.milliseconds],
    )


def ports_of(count):
    return [(side, number) for side in (0, 1) for number in range(count)]


# The run


def published(facts, present, left):
    """The order of what the coflows that are present still owe, with its bound."""
    flows = [flow._replace(coflow=present.index(flow.coflow), units=owed) for flow, owed in zip(facts.flows, left) if flow.coflow in present and owed > 0]
    weights = [facts.weights[c] for c in present]
    entries = certificate(flows, weights, facts.ports)
    places = [Place(facts.idents[present[entry.coflow]], entry.port, entry.price) for entry in entries]
    return [present[entry.coflow] for entry in entries], places, bound_and_slack(flows, weights, entries)[0]


def append(runs, length, granted):
    """Runs that are equal and follow one another are one."""
    if runs and runs[-1][1] == granted:
        length += runs.pop()[0]
    runs.append((length, granted))


def serve(facts, every):
    """The publishings and the runs: at each time the first thing that is to be done."""
    left, epochs, runs = [flow.units for flow in facts.flows], [], []
    joined, gone, order, time, last = [], set(), [], 0, None
    while True:
        owed = [sum(units for flow, units in zip(facts.flows, left) if flow.coflow == c) for c in range(len(facts.times))]
        waiting = [c for c in range(len(facts.times)) if c not in joined]
        present = sorted(c for c in joined if c not in gone)
        served = [c for c in present if owed[c] == 0]
        owing = len(served) < len(present)
        arrived = [c for c in waiting if facts.times[c] <= time]
        due = owing and time % every == 0 and last != time
        if arrived:
            joined.append(min(arrived, key=lambda c: (facts.times[c], c)))
        elif due and served:
            gone.add(served[0])
        elif due:
            order, places, bound = published(facts, present, left)
            epochs.append(Epoch(time, places, bound))
            last = time
        elif owing:
            line = [c for c in order if c not in gone] + [c for c in joined if c not in order and c not in gone]
            granted = grants(facts.flows, line, left)
            stop = min([time - time % every + every] + [facts.times[c] for c in waiting])
            length = min([stop - time] + [left[number] for number in granted])
            for number in granted:
                left[number] -= length
            append(runs, length, granted)
            time += length
        elif waiting:
            arrival = min(facts.times[c] for c in waiting)
            append(runs, arrival - time, [])
            time = arrival
        else:
            return epochs, runs


# The certificate


def released(facts):
    """From the last place on: the port with the most load of the coflows that are left, the first one of these. Where the coflow that arrives last comes later than that load could be
    served, it takes the place, and pays nothing for load. Else the place is that of the ordering certificate. The placed coflow pays all that it has left for its earliest end."""
    every, left, places = ports_of(facts.ports), list(range(len(facts.times))), []
    table = {(c, port): load(facts.flows, c, port) for c in left for port in every}
    rest = {c: facts.weights[c] * ONE for c in left}
    while left:
        totals = [sum(table[c, port] for c in left) for port in every]
        most = max(totals)
        port = every[totals.index(most)]
        latest = max(left, key=lambda c: (facts.times[c], c))
        if most == 0 or facts.times[latest] > most:
            placed, y = latest, 0
        else:
            placed = None
            for c in left:
                if table[c, port] > 0 and (placed is None or rest[c] * table[placed, port] <= rest[placed] * table[c, port]):
                    placed = c
            y = rest[placed] // table[placed, port]
        for c in left:
            rest[c] -= y * table[c, port]
        places.append(Release(facts.idents[placed], port, y, rest[placed]))
        left.remove(placed)
    return places[::-1]


def total_of(facts, release):
    """Half of: y times the square of the front's load, the squares of its coflows' loads and twice the first arrival of those that have load, times the front's load; and twice z times the
    earliest end. The front of a place is its coflow and all before it."""
    value, front = 0, []
    for place in release:
        coflow = facts.idents.index(place.ident)
        front.append(coflow)
        loads = [load(facts.flows, c, place.port) for c in front]
        first = min([facts.times[c] for c, units in zip(front, loads) if units > 0], default=0)
        greatest = max(load(facts.flows, coflow, port) for port in ports_of(facts.ports))
        end = facts.times[coflow] + greatest if greatest > 0 else 0
        value += place.y * (sum(loads) ** 2 + sum(units**2 for units in loads) + 2 * first * sum(loads)) + 2 * place.z * end
    return up(value, 2 * ONE)


def online_of(instance):
    facts = facts_of(instance)
    epochs, runs = serve(facts, instance.every)
    ends = completions(facts.flows, len(facts.idents), runs)
    release = released(facts)
    return Online(epochs, list(zip(facts.idents, ends)), sum(w * end for w, end in zip(facts.weights, ends)), release, total_of(facts, release), runs)


def least_cost(facts):
    """The least cost of all schedules that serve nobody before its arrival: each slot costs the weights of the coflows that are not complete before it. A slot may serve what can be served, for
    serving more is never dearer."""

    def valid(slot):
        return len({facts.flows[f].ingress for f in slot}) == len(slot) == len({facts.flows[f].egress for f in slot})

    @functools.lru_cache(maxsize=None)
    def cost(time, left):
        owing = [f for f, units in enumerate(left) if units > 0]
        if not owing:
            return 0
        free = [f for f in owing if facts.times[facts.flows[f].coflow] <= time]
        slots = [slot for size in range(1, len(free) + 1) for slot in itertools.combinations(free, size) if valid(slot)] or [()]
        waiting = sum(facts.weights[c] for c in {facts.flows[f].coflow for f in owing})
        return waiting + min(cost(time + 1, tuple(units - (f in slot) for f, units in enumerate(left))) for slot in slots)

    return cost(0, tuple(flow.units for flow in facts.flows))


# The text


def text_of(online):
    def place(word, k, it):
        return " ".join(map(str, [word, k, it.ident, ("in", "out")[it.port[0]], it.port[1], *it[2:]]))

    lines = ["sincronia online 2"]
    for epoch in online.epochs:
        lines += ["epoch %d" % epoch.time, *(place("place", k, it) for k, it in enumerate(epoch.places, 1)), "bound %d" % epoch.bound]
    lines += ["done %d %d" % line for line in online.done] + ["cost %d" % online.cost]
    lines += [place("release", k, it) for k, it in enumerate(online.release, 1)] + ["total %d" % online.total]
    lines += [" ".join(map(str, ["run", length, *granted])) for length, granted in online.runs]
    return "\n".join(lines + ["end", ""])


# The verdict


def first_reason(facts, online):
    """The line of the verdict on what a text says, whoever made it."""
    for reason in (place_reason, certificate_reason, slot_reason, end_reason):
        line = reason(facts, online)
        if line:
            return line
    return "yes total %d cost %d" % (online.total, online.cost)


def place_reason(facts, online):
    idents = [place.ident for place in online.release]
    for k, ident in enumerate(idents):
        if ident not in facts.idents or ident in idents[:k]:
            return "no order %d" % (k + 1)
    if len(idents) < len(facts.idents):
        return "no order %d" % (len(idents) + 1)
    for k, place in enumerate(online.release):
        if place.port[1] >= facts.ports:
            return "no port %d %d" % (k + 1, place.port[1])
    return None


def certificate_reason(facts, online):
    places = [facts.idents.index(place.ident) for place in online.release]
    for c, ident in enumerate(facts.idents):
        k = places.index(c)
        paid = sum(place.y * load(facts.flows, c, place.port) for place in online.release[k:]) + online.release[k].z
        if paid > facts.weights[c] * ONE:
            return "no infeasible %d" % ident
    real = total_of(facts, online.release)
    return "no total %d %d" % (online.total, real) if online.total > real else None


def slot_reason(facts, online):
    """What holds of a slot of a run holds of its first one."""
    firsts = list(itertools.accumulate([length for length, _ in online.runs], initial=1))
    for first, (_, granted) in zip(firsts, online.runs):
        strange = [f for f in granted if f >= len(facts.flows)]
        if strange:
            return "no flow %d %d" % (first, min(strange))
    for first, (_, granted) in zip(firsts, online.runs):
        used = [(0, facts.flows[f].ingress) for f in granted] + [(1, facts.flows[f].egress) for f in granted]
        twice = [port for port in used if used.count(port) > 1]
        if twice:
            return "no clash %d %s %d" % (first, ("in", "out")[min(twice)[0]], min(twice)[1])
    for number, flow in enumerate(facts.flows):
        have = sum(length for length, granted in online.runs if number in granted)
        if have != flow.units:
            return "no units %d %d %d" % (number, have, flow.units)
    for first, (_, granted) in zip(firsts, online.runs):
        early = [facts.flows[f].coflow for f in granted if first <= facts.times[facts.flows[f].coflow]]
        if early:
            return "no early %d %d" % (first, facts.idents[min(early)])
    return None


def end_reason(facts, online):
    for k in range(max(len(facts.idents), len(online.done))):
        if k >= len(facts.idents) or k >= len(online.done) or online.done[k][0] != facts.idents[k]:
            return "no listed %d" % (k + 1)
    ends = completions(facts.flows, len(facts.idents), online.runs)
    for (ident, stated), real in zip(online.done, ends):
        if stated != real:
            return "no done %d %d %d" % (ident, stated, real)
    real = sum(weight * end for weight, end in zip(facts.weights, ends))
    return "no cost %d %d" % (online.cost, real) if online.cost != real else None
