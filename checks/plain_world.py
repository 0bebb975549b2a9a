#!/usr/bin/env python3
"""Takes drawn lists of steps in a plain world of interleavings, over the plain master of `plain_master.py`, and compares each answer, and what is told, with what the program `master_runs` prints.
A tally of what the program alone printed asks that each closing credited what was sent, and that nothing was sent twice. Rows that were worked by hand are compared with both, and each
allocation of these is refused in turn.

Use: checks/plain_world.py     The last line is 'N passed, M failed'; the exit code is 0 where none failed.
"""
import random
import re
import sys
import tempfile
from collections import Counter, namedtuple
from dataclasses import dataclass

sys.dont_write_bytecode = True
from master_journal import Master, named, optional
from plain_master import DRAWN, TWO, build, compared, fault_of_refusals, first_difference, ran, row_of, written
from plain_plan import Coflow, drawn
from refused_memory import make_library

Sent = namedtuple("Sent", "slot flow units port")


@dataclass
class Port:
    """An ingress port: slot and flow of its last post, what became of that, its count, what is settled in the open run, and the units that were sent for the post."""

    slot: int = 0
    flow: int = 0
    stage: tuple = ("Unposted",)
    count: int = 0
    settled: object = None
    sent: int = 0

    def word(self):
        return ("Granted", "Drawn", "Reported").index(self.stage[0]) + 1 << 61 | self.slot << 20 | self.flow

    def told(self):
        stage = "Reported { agent: %d, units: %d }" % self.stage[1:] if self.stage[0] == "Reported" else named(self.stage[0], self.stage[1:])
        return "PortState { slot: %d, flow: %d, stage: %s, count: %d, settled: %s, sent: %d }" % (self.slot, self.flow, stage, self.count, optional(self.settled), self.sent)


class World:
    """A master, agents, ingress ports and what agents sent. A step whose condition does not hold is blocked."""

    def __init__(self, ports, coflows, limit, agents):
        self.master, self.agents = Master(ports, coflows, limit), agents
        self.ports = [Port() for _ in range(ports)]
        self.sent = []

    def run(self):
        return self.master.run(len(self.master.journal))

    def step(self, name, *numbers):
        """The answer to a step of an agent or of the driver."""
        places = {"post": 0, "draw": 1, "send": 1, "report": 1, "settle": 0, "note": 0}
        if name == "close":
            return self.close() or "Blocked"
        agent, port = numbers[0] if places[name] else 0, numbers[places[name]]
        if port >= len(self.ports) or places[name] and agent >= self.agents:
            return "Blocked"
        rest = [agent] * places[name] + list(numbers[places[name] + 1 :])
        return getattr(self, name)(port, self.ports[port], *rest) or "Blocked"

    def asked(self, who, command):
        """The master's reply. Where a run is opened, nothing is settled for it yet."""
        reply = self.master.ask(who, command)
        if reply[0] == "Opened":
            for port in self.ports:
                port.settled = None
        return named(reply[0], reply[1:])

    def ask(self, who, command):
        if command[0] in ("short", "close") or not self.master.is_in_range(*command):
            return "Blocked"
        return "Replied(%s)" % self.asked(who, command)

    def post(self, number, port):
        run = self.run()
        if run and number in run.granted and port.slot != run.first:
            self.ports[number] = Port(run.first, run.granted[number], ("Granted",), run.slots, port.settled)
            return "Posted"

    def draw(self, number, port, agent):
        if port.stage == ("Granted",):
            port.stage = "Drawn", agent
            return "Drawn"

    def send(self, number, port, agent, units):
        if port.stage == ("Drawn", agent) and port.sent == 0 and 1 <= units <= port.count:
            port.sent = units
            self.sent.append(Sent(port.slot, port.flow, units, number))
            return "Sent"

    def report(self, number, port, agent):
        if port.stage == ("Drawn", agent):
            port.stage, port.count = ("Reported", agent, port.sent), port.sent
            return "Reported"

    def settle(self, number, port):
        run = self.run()
        if not run or port.slot != run.first or port.settled is not None:
            return None
        if port.stage[0] == "Drawn":
            return named("Busy", [port.word()])
        if port.stage[0] == "Granted":
            port.stage, port.settled = ("TakenBack",), 0
        else:
            port.settled = port.count
        return named("Settled", [port.settled])

    def note(self, number, port):
        run = self.run()
        if run and port.settled is not None and port.settled < run.slots:
            return "Noted(%s)" % self.asked(0, ("short", number, port.settled))

    def close(self):
        run = self.run()
        if run and all(self.is_done(run, number) for number in run.granted):
            return "Replied(%s)" % self.asked(0, ("close",))

    def is_done(self, run, number):
        """The port is settled, and where that is less than the run's length, it is noted."""
        settled = self.ports[number].settled
        return settled is not None and (settled >= run.slots or self.master.noted(run, len(self.master.journal), number) == settled)

    def told(self):
        """The lines of what a world tells, but for its journal and what was sent."""
        return [*self.master.told(), "agents %d" % self.agents, *("port %d %s" % (number, port.told()) for number, port in enumerate(self.ports))]

    def end(self):
        return self.told() + self.master.entries() + ["SentRun { slot: %d, flow: %d, units: %d, port: %d }" % run for run in self.sent]


def game(ports, coflows, limit, agents, lines):
    """The text of a list, by lines, and what a plain world says to it."""
    world, said = World(ports, coflows, limit, agents), []
    for first, *rest in lines:
        if first == "tell":
            said += world.told()
        elif str(first).isdigit():
            said.append(world.ask(int(first), (rest[0], *map(int, rest[1:]))))
        else:
            said.append(world.step(first, *map(int, rest)))
    head = ["world", limit, *(coflow.weight for coflow in coflows), agents]
    return [written(head), *map(written, lines)], said + world.end()


# Rows that were worked by hand, over the trace of the rows of `plain_master.py`

# name, limit, agents, steps and answers, some of the lines that are told behind the last answer, how many entries the journal has, and how many runs were sent
ROWS = [
    ("a grant is taken back and another is sent", 100, 1,
     "1 register 0 = Replied(Joined); 0 open 2 = Replied(Opened(1, 2, 1)); post 0 = Posted; settle 0 = Settled(0); post 0 = Blocked; close = Blocked; note 0 = Noted(Noted(0)); "
     "close = Replied(Closed(1)); 0 open 1 = Replied(Opened(3, 1, 1)); post 0 = Posted; draw 0 0 = Drawn; settle 0 = Busy(4611686018430533632); send 0 0 1 = Sent; report 0 0 = Reported; "
     "settle 0 = Settled(1); close = Replied(Closed(3))",
     ["agents 1", "SentRun { slot: 3, flow: 0, units: 1, port: 0 }"], 6, 1),
    ("a short run is closed once it is noted", 2, 2,
     "1 register 0 = Replied(Joined); 0 open 5 = Replied(Opened(1, 3, 1)); 1 pull 0 = Replied(Full(2)); draw 0 0 = Blocked; post 0 = Posted; post 1 = Blocked; post 3 = Blocked; "
     "draw 2 0 = Blocked; draw 1 0 = Drawn; draw 0 0 = Blocked; send 0 0 1 = Blocked; send 1 0 4 = Blocked; send 1 0 0 = Blocked; send 1 0 2 = Sent; send 1 0 1 = Blocked; report 0 0 = Blocked; "
     "report 1 0 = Reported; close = Blocked; settle 0 = Settled(2); settle 0 = Blocked; close = Blocked; note 0 = Noted(Noted(2)); close = Replied(Closed(1)); close = Blocked",
     ["port 0 PortState { slot: 1, flow: 0, stage: Reported { agent: 1, units: 2 }, count: 2, settled: Some(2), sent: 2 }"], 4, 1),
    ("a full journal holds a run open", 2, 1,
     "1 register 0 = Replied(Joined); 0 open 5 = Replied(Opened(1, 3, 1)); post 0 = Posted; settle 0 = Settled(0); note 0 = Noted(Noted(0)); note 0 = Noted(Noted(0)); note 0 = Noted(Noted(0)); "
     "note 0 = Noted(Noted(0)); note 0 = Noted(Full(6)); close = Replied(Full(6)); settle 0 = Blocked", [], 6, 0),
    ("a command that may not be asked is blocked", 100, 1,
     "0 short 0 1 = Blocked; 0 close = Blocked; 0 register 2 = Blocked; 0 open 0 = Blocked; 0 reweigh 0 0 = Blocked; 0 reweigh 0 4294967297 = Blocked; 1 register 0 = Replied(Joined); "
     "0 reweigh 0 5 = Replied(Weighed(1))", [], 2, 0),
    ("a coflow that leaves keeps its open grant", 100, 1,
     "1 register 0 = Replied(Joined); 0 open 2 = Replied(Opened(1, 2, 1)); 0 withdraw 0 = Replied(Left); 0 skip 9 = Replied(StillOpen(1)); post 0 = Posted; draw 0 0 = Drawn; send 0 0 2 = Sent; "
     "report 0 0 = Reported; settle 0 = Settled(2); close = Replied(Closed(1)); 0 open 2 = Replied(NothingLeft); 0 skip 9 = Replied(Skipped(9)); 0 register 1 = Replied(Joined); "
     "0 skip 12 = Replied(StillOwed(1)); 0 open 2 = Replied(Opened(9, 1, 1))",
     ["flow 0 owes 1"], 10, 1),
    ("a run is sent and not closed", 9, 1,
     "1 register 0 = Replied(Joined); 0 open 2 = Replied(Opened(1, 2, 1)); settle 0 = Blocked; post 0 = Posted; draw 0 0 = Drawn; send 0 0 2 = Sent",
     ["SentRun { slot: 1, flow: 0, units: 2, port: 0 }"], 2, 1),
]


def fault_of_row(folder, limit, agents, text, told, entries, sent):
    """What is wrong with a row, or None."""
    steps, answers = row_of(text)
    lines, said = game(*TWO, limit, agents, [step.split() for step in steps])
    if said[: len(answers)] != list(answers):
        return "the plain world says %s" % said[: len(answers)]
    counts = [sum(line.startswith(word) for line in said) for word in ("entry", "SentRun")]
    if not set(told) <= set(said) or counts != [entries, sent]:
        return "the plain world tells %s" % said
    return first_difference(ran(folder, *TWO, lines), said) or fault_of_refusals(folder, said, "NoMemory")


# Drawn lists

# A coflow of 30 units from port 0 to port 2, one of 40 from 0 to 1, and one of 50 from 1 to 2
THREE = 3, [Coflow(ident, [start], [(end, units * 10**6)], 1) for ident, start, end, units in [(1, 0, 2, 30), (2, 0, 1, 40), (3, 1, 2, 50)]]

# How often each step is drawn
STEPS = {"ask": 1, "post": 4, "draw": 4, "send": 6, "report": 2, "settle": 1, "note": 1, "close": 1}
COMMANDS = {"register": 6, "publish": 4, "pull": 4, "withdraw": 1, "skip": 2, "reweigh": 2, "open": 21}


def chosen(r, counts):
    return r.choices(list(counts), list(counts.values()))[0]


def asking(r, coflows):
    """A command of one of three callers. Weight 0 is out of range."""
    word, coflow = chosen(r, COMMANDS), r.randrange(coflows)
    numbers = {"publish": [], "skip": [r.randrange(400)], "reweigh": [coflow, r.randrange(5)], "open": [1 + r.randrange(5)]}
    return [r.randrange(3), word, *numbers.get(word, [coflow])]


def step(r, ports, coflows):
    """A step of any kind. Agent 2 and the port behind the last are not there."""
    name, agent, port, units = chosen(r, STEPS), r.randrange(3), r.randrange(ports + 1), r.randrange(6)
    if name == "ask":
        return asking(r, coflows)
    return [name, *{"draw": [agent, port], "send": [agent, port, units], "report": [agent, port], "close": []}.get(name, [port])]


def drawn_lines(r, ports, coflows, count):
    """So many steps. Behind each one that closes a run all is told."""
    lines = []
    for _ in range(count):
        lines.append(step(r, ports, coflows))
        lines += [["tell"]] if lines[-1] == ["close"] else []
    return lines


# A tally of what the program printed


def numbers_of(text):
    return [int(number) for number in re.findall(r"\d+", text)]


def answered(lines, printed, told):
    """Each line of a list with what was printed for it: an answer, or so many lines of what is told."""
    at = 0
    for line in lines[1:]:
        size = told if line == "tell" else 1
        yield line, printed[at : at + size]
        at += size


class Tally:
    """An account of the units that agents sent, all by what was printed: by port in the open run, and of each flow that it owes."""

    def __init__(self, sent, owed, met):
        self.sent, self.owed, self.met = sent, owed, met  # the runs that are told at the end; what each flow owes; how often each thing was met
        self.slots, self.closed = None, None  # the length of the open run; the first slot of a run that was just closed
        self.ports = Counter()

    def take(self, line, printed):
        """Takes a line with what was printed for it. What is wrong, or None."""
        word, answer = line.split()[0], printed[0]
        name = re.match(r"\w+(\([A-Z]\w+)?", answer).group(0)
        self.met[name] += 1
        if word == "tell":
            return self.told(printed)
        if name == "Settled":
            return self.settled(line, numbers_of(answer)[0])
        if name == "Sent":
            self.send(*numbers_of(line))
        if name == "Replied(Opened":
            _, self.slots, _ = numbers_of(answer)
            self.ports.clear()
        if name == "Replied(Closed":
            self.slots, self.closed = None, numbers_of(answer)[0]
        if name == "Replied(Left" and self.slots:
            self.met["left in a run"] += 1
        return None

    def send(self, agent, port, units):
        self.ports[port] += units
        self.met["sent by %d" % agent] += 1
        self.met["sent whole" if units == self.slots else "sent short"] += 1

    def settled(self, line, units):
        """A port is settled by what was sent from it in the run."""
        port = numbers_of(line)[0]
        return None if units == self.ports[port] else "port %d is settled by %d, and %d were sent" % (port, units, self.ports[port])

    def told(self, printed):
        """What each flow owes is as before, and where a run was just closed less by what was sent of it in that run."""
        owed = [numbers_of(line)[1] for line in printed if line.startswith("flow")]
        sent = [sum(run.units for run in self.sent if run.slot == self.closed and run.flow == flow) for flow in range(len(owed))]
        self.met["taken back"] += any("TakenBack" in line for line in printed)
        before, self.owed, self.closed = self.owed, owed, None
        return None if owed == [one - other for one, other in zip(before, sent)] else "flows owed %s, %s were sent, and %s are owed" % (before, sent, owed)


def tallied(world, lines, printed, met):
    """What is wrong with what a new world printed of a list of steps, or None."""
    sent = [Sent(*numbers_of(line)) for line in printed if line.startswith("SentRun")]
    pairs = [(run.slot + k, run.flow) for run in sent for k in range(run.units)]
    if len(set(pairs)) != len(pairs):
        return "a unit was sent twice"
    tally = Tally(sent, [flow.units for flow in world.master.flows], met)
    faults = [tally.take(*pair) for pair in answered(lines, printed, len(world.told()))]
    return next((fault for fault in faults if fault), None)


MET = ["Replied(Closed", "sent whole", "sent short", "sent by 0", "sent by 1", "Noted(Noted", "Noted(Full", "taken back", "Busy", "Replied(Full", "left in a run", "Replied(StillOwed",
       "Replied(Skipped", "Replied(Weighed", "Blocked"]


def fault_of_drawn(folder, seed, ports, coflows, limit, count, met):
    """What is wrong with what the program says to a drawn list of so many steps of two agents, or None."""
    lines, said = game(ports, coflows, limit, 2, drawn_lines(random.Random(seed), ports, len(coflows), count))
    printed = ran(folder, ports, coflows, lines)
    return first_difference(printed, said) or tallied(World(ports, coflows, limit, 2), lines, printed, met)


def results(folder):
    """The name of each comparison and what is wrong, or None."""
    for name, *row in ROWS:
        yield name, fault_of_row(folder, *row)
    all_met = Counter()
    for seed in range(4):
        met = Counter()
        yield "three ports, list %d" % seed, fault_of_drawn(folder, seed, *THREE, 300, 6000, met)
        yield "three ports, list %d: runs are closed" % seed, None if met["Replied(Closed"] > 5 else "%d are" % met["Replied(Closed"]
        all_met += met
    for seed in range(60):
        ports, coflows, _ = drawn(DRAWN[seed % len(DRAWN)], random.Random(seed))
        yield "drawn trace, list %d" % seed, fault_of_drawn(folder, seed, ports, coflows, (9, 40, 100)[seed // 3 % 3], 600, all_met)
    yield "each thing is met", next(("%s is not" % it for it in MET if not all_met[it]), None)


def main():
    build()
    with tempfile.TemporaryDirectory() as folder:
        make_library(folder)
        return compared(results(folder))


if __name__ == "__main__":
    sys.exit(main())
