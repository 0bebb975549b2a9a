"""A plain master: it keeps its journal alone, and reads from there what it answers and what it tells. `plain_master.py` and `plain_world.py` compare it with the program `master_runs`."""
import functools
from collections import namedtuple

from plain_plan import ONE, certificate, flows_of, grants, load

LAST_SLOT = 2**41 - 1
MAX_WEIGHT = 2**32

# A command is its word and its numbers, and a reply its name and its numbers.
Entry = namedtuple("Entry", "who command reply")
Run = namedtuple("Run", "opened first slots granted")  # the number of the entry that opened it; the granted flows by ingress port


def named(name, numbers):
    """A value as it is printed."""
    return "%s(%s)" % (name, ", ".join(map(str, numbers))) if numbers else name


def optional(number):
    return "None" if number is None else "Some(%d)" % number


def reading(read):
    """What a master reads from its first entries, of which it is told how many. Entries do not change, so it is read once."""

    @functools.wraps(read)
    def kept(self, n):
        key = read.__name__, n
        if key not in self.kept:
            self.kept[key] = read(self, n)
        return self.kept[key]

    return kept


def stretches(slots):
    """Lengths and flows of stretches of slots, with equal neighbours joined and those of no slot left out."""
    joined = []
    for length, flows in slots:
        if length and joined and joined[-1][1] == flows:
            joined[-1] = joined[-1][0] + length, flows
        elif length:
            joined.append((length, flows))
    return joined


class Master:
    """A master whose answers are told by its journal: n stands for the first n entries."""

    def __init__(self, ports, coflows, limit):
        self.ports, self.limit = ports, limit
        self.flows = flows_of(coflows, 1)
        self.weights = [coflow.weight for coflow in coflows]
        self.journal, self.kept = [], {}

    # What is read from the journal

    def answered(self, n, name):
        """The numbers of the entries that were answered so."""
        return [k for k in range(n) if self.journal[k].reply[0] == name]

    def joined(self, n):
        return [self.journal[k].command[1] for k in self.answered(n, "Joined")]

    @reading
    def present(self, n):
        """The coflows that joined and have not left, by joining."""
        left = [self.journal[k].command[1] for k in self.answered(n, "Left")]
        return [coflow for coflow in self.joined(n) if coflow not in left]

    def weight(self, n, coflow):
        """The last weight that it was given."""
        given = [self.journal[k].command[2] for k in self.answered(n, "Weighed") if self.journal[k].command[1] == coflow]
        return (given or [self.weights[coflow]])[-1]

    def version(self, n):
        return len(self.answered(n, "Version"))

    @reading
    def places(self, n):
        """The ordering certificate that the newest version was made of: that of the coflows that were present, by the units that they owed and the weights that they had. Each place has what its
        coflow keeps of its budget, and the load of its port over the coflows up to it."""
        published = self.answered(n, "Version")
        if not published:
            return []
        k = published[-1]
        numbers, owed = sorted(self.present(k)), self.owed(k)
        flows = [flow._replace(coflow=numbers.index(flow.coflow), units=owed[f]) for f, flow in enumerate(self.flows) if flow.coflow in numbers and owed[f] > 0]
        weights = [self.weight(k, coflow) for coflow in numbers]
        entries = certificate(flows, weights, self.ports)
        places = []
        for place, (coflow, port, price) in enumerate(entries):
            paid = sum(later.price * load(flows, coflow, later.port) for later in entries[place:])
            front = sum(load(flows, earlier.coflow, port) for earlier in entries[: place + 1])
            places.append((numbers[coflow], port, price, weights[coflow] * ONE - paid, front))
        return places

    def rank(self, n, coflow):
        """Its place in the newest version, counted from 1, or 0."""
        order = [place[0] for place in self.places(n)]
        return order.index(coflow) + 1 if coflow in order else 0

    @reading
    def line(self, n):
        """The newest order without those who left, and then those who have no place, by joining."""
        order, present = [place[0] for place in self.places(n)], self.present(n)
        return [coflow for coflow in order if coflow in present] + [coflow for coflow in present if coflow not in order]

    def run_at(self, k):
        """The run that entry k opened."""
        _, first, slots, _ = self.journal[k].reply
        granted = grants(self.flows, self.line(k), self.owed(k))
        return Run(k, first, slots, {self.flows[f].ingress: f for f in granted})

    @reading
    def run(self, n):
        """The open run, or None."""
        opened, closed = self.answered(n, "Opened"), self.answered(n, "Closed")
        return self.run_at(opened[-1]) if len(opened) > len(closed) else None

    def noted(self, run, n, port):
        """What was noted last at the port in the run, or None."""
        notes = [self.journal[k].reply[1] for k in range(run.opened, n) if self.journal[k].reply[0] == "Noted" and self.journal[k].command[1] == port]
        return (notes or [None])[-1]

    @reading
    def owed(self, n):
        """The units of each flow that no closing credited: a closing credits each granted flow with its note, or with the length of the run."""
        owed = [flow.units for flow in self.flows]
        for opened, closed in zip(self.answered(n, "Opened"), self.answered(n, "Closed")):
            run = self.run_at(opened)
            for port, flow in run.granted.items():
                noted = self.noted(run, closed, port)
                owed[flow] -= run.slots if noted is None else noted
        return owed

    @reading
    def next_slot(self, n):
        slot = 1
        for k in range(n):
            name, *numbers = self.journal[k].reply
            if name == "Closed":
                slot = numbers[0] + self.run(k).slots
            if name == "Skipped":
                slot = numbers[0]
        return slot

    # Commands

    def is_in_range(self, word, *numbers):
        if word in ("register", "withdraw", "pull", "reweigh") and numbers[0] >= len(self.weights):
            return False
        if word == "reweigh":
            return 1 <= numbers[1] <= MAX_WEIGHT
        return not (word == "open" and numbers[0] == 0 or word == "short" and numbers[0] >= self.ports)

    def reply(self, word, *numbers):
        """The reply to a command in range."""
        n = len(self.journal)
        if n >= self.limit + (self.ports + 1 if word in ("short", "close") else 0):
            return ("Full", n)
        return getattr(self, word)(n, self.run(n), *numbers)

    def register(self, n, run, coflow):
        return ("Already",) if coflow in self.joined(n) else ("Joined",)

    def withdraw(self, n, run, coflow):
        return ("Left",) if coflow in self.present(n) else ("NotHere",)

    def reweigh(self, n, run, coflow, weight):
        return ("Weighed", self.weight(n, coflow)) if coflow in self.present(n) else ("NotHere",)

    def publish(self, n, run):
        return ("StillOpen", run.first) if run else ("Version", self.version(n) + 1)

    def pull(self, n, run, coflow):
        rank = self.rank(n, coflow)
        return ("Rank", self.version(n), rank) if rank else ("Unranked", self.version(n))

    def open(self, n, run, most):
        if run:
            return ("StillOpen", run.first)
        granted, slot = grants(self.flows, self.line(n), self.owed(n)), self.next_slot(n)
        if not granted:
            return ("NothingLeft",)
        if slot > LAST_SLOT:
            return ("Late", slot)
        return ("Opened", slot, min([most, LAST_SLOT + 1 - slot, *(self.owed(n)[f] for f in granted)]), len(granted))

    def short(self, n, run, port, units):
        return ("Noted", min(units, run.slots)) if run and port in run.granted else ("NotGranted", port)

    def close(self, n, run):
        return ("Closed", run.first) if run else ("NoneOpen",)

    def skip(self, n, run, to):
        if run:
            return ("StillOpen", run.first)
        owing = [f for f, flow in enumerate(self.flows) if flow.coflow in self.line(n) and self.owed(n)[f] > 0]
        if owing:
            return ("StillOwed", owing[0])
        return ("Late", to) if to > LAST_SLOT else ("Skipped", max(self.next_slot(n), to))

    def ask(self, who, command):
        """The reply; the journal gets an entry of it, unless it is full."""
        reply = self.reply(*command)
        if reply[0] != "Full":
            self.journal.append(Entry(who, command, reply))
        return reply

    # What is told

    def told(self):
        """The lines of what a master tells, but for its journal."""
        n = len(self.journal)
        run, coflows = self.run(n), range(len(self.weights))
        places = ["Place { coflow: %d, port: Port { side: %s, number: %d }, y: %d, rest: %d, load: %d }" % (c, ("Ingress", "Egress")[side], number, *rest)
                  for c, (side, number), *rest in self.places(n)]
        return [
            "version %d" % self.version(n),
            "places [%s]" % ", ".join(places),
            "ranks %s" % [self.rank(n, c) for c in coflows],
            "next %d open %s" % (self.next_slot(n), optional(run and run.slots)),
            "granted %s" % sorted(run.granted.values() if run else []),
            *("coflow %d rank %d weight %d" % (c, self.rank(n, c), self.weight(n, c)) for c in coflows),
            *("flow %d owes %d" % pair for pair in enumerate(self.owed(n))),
            *("ingress %d granted %s noted %s" % (port, optional(run and run.granted.get(port)), optional(run and self.noted(run, n, port))) for port in range(self.ports)),
        ]

    def closed(self):
        """The lines of the closed runs, counted entry by entry: a flow that a run grants is credited with what was noted last at its port, or with the run's length."""
        lines, run, units = [], None, {}
        for k, (_, asked, (name, *numbers)) in enumerate(self.journal):
            if name == "Opened":
                run = self.run_at(k)
                units = dict.fromkeys(run.granted, run.slots)
            elif name == "Noted":
                units[asked[1]] = numbers[0]
            elif name == "Closed":
                lines.append("closed %d %d" % (run.first, run.slots))
                lines += ("credit %d %d %d" % (flow, port, units[port]) for flow, port in sorted((flow, port) for port, flow in run.granted.items()))
        return lines

    def credits(self, k):
        """The units that the closing at entry k credits to each flow that its run grants."""
        run = self.run(k)
        notes = {flow: self.noted(run, k, port) for port, flow in run.granted.items()}
        return {flow: run.slots if noted is None else noted for flow, noted in sorted(notes.items())}

    def schedule(self):
        """The slots before the next one, in stretches of equal ones: those of each closed run, a flow in as many of them as it is credited units, from the first on, and those that were let pass."""
        made, slot = [], 1
        for k, (_, _, (name, *numbers)) in enumerate(self.journal):
            if name == "Closed":
                units, run = self.credits(k), self.run(k)
                marks = sorted({0, run.slots, *units.values()})
                made += [(high - low, [flow for flow in units if units[flow] > low]) for low, high in zip(marks, marks[1:])]
                slot = run.first + run.slots
            elif name == "Skipped":
                made.append((numbers[0] - slot, []))
                slot = numbers[0]
        return stretches(made)

    def entries(self):
        return ["entry %d %s %s" % (who, shown(command), named(reply[0], reply[1:])) for who, command, reply in self.journal]


def shown(command):
    """A command as it is printed."""
    word, *numbers = command
    return "Reweigh { coflow: %d, weight: %d }" % tuple(numbers) if word == "reweigh" else named(word.capitalize(), numbers)
