#!/usr/bin/env python3
"""Plays drawn halls of eight callers on threads by the program `hall_runs`, and compares what it prints with a plain master: each entry of the closed journal with the reply of that master,
each caller's entries with its commands, drawn here once more, and each answer with the entry, or the rank, that it tells. The greatest hall has 100,000 commands. It also looks whether the
blocks of docs/HALL.md are the text of `test_support` and of `hall_tests`.

Use: checks/plain_hall.py     The last line is 'N passed, M failed'; the exit code is 0 where none failed.
"""
import os
import random
import re
import subprocess
import sys
import tempfile

sys.dont_write_bytecode = True
from master_journal import Entry, Master, Run, named, shown
from plain_master import CUBE, DRAWN, command, compared
from plain_plan import Coflow, certificate, drawn, grants, trace_text, write
from refused_memory import TOP

PROGRAM = os.path.join(TOP, "crates", "hall_runs", "out", "hall_runs")
CALLERS = 8


def build():
    """Proves and builds the program, where there is none or a source is newer. Where that fails the script ends, and leaves no program of an earlier tree."""
    built = subprocess.run([os.path.join(TOP, "checks", "build"), os.path.basename(PROGRAM)], check=False)
    if built.returncode:
        print("the program could not be built\n0 passed, 1 failed")
        sys.exit(1)


# A plain master for long journals


class Stepped(Master):
    """A master that keeps what it reads from its journal, and makes it anew only where an entry changes it. It answers for its whole journal alone. It is compared with the one that reads its
    journal again for each answer."""

    def __init__(self, ports, coflows, limit):
        super().__init__(ports, coflows, limit)
        self.joins, self.present_now, self.order, self.versions = [], [], [], 0
        self.open_run, self.notes, self.next = None, {}, 1
        self.left = [flow.units for flow in self.flows]

    def joined(self, n):
        return self.joins

    def present(self, n):
        return self.present_now

    def weight(self, n, coflow):
        return self.weights[coflow]

    def version(self, n):
        return self.versions

    def rank(self, n, coflow):
        return self.order.index(coflow) + 1 if coflow in self.order else 0

    def line(self, n):
        return [coflow for coflow in self.order if coflow in self.present_now] + [coflow for coflow in self.present_now if coflow not in self.order]

    def run(self, n):
        return self.open_run

    def owed(self, n):
        return self.left

    def next_slot(self, n):
        return self.next

    def newest_order(self):
        """The coflows that are present, in the order of the ordering certificate of what they owe."""
        numbers = sorted(self.present_now)
        flows = [flow._replace(coflow=numbers.index(flow.coflow), units=self.left[f]) for f, flow in enumerate(self.flows) if flow.coflow in numbers and self.left[f] > 0]
        return [numbers[entry.coflow] for entry in certificate(flows, [self.weights[coflow] for coflow in numbers], self.ports)]

    def ask(self, who, command):
        reply = self.reply(*command)
        if reply[0] == "Full":
            return reply
        name, *numbers = reply
        if name == "Joined":
            self.joins.append(command[1])
            self.present_now.append(command[1])
        elif name == "Left":
            self.present_now.remove(command[1])
        elif name == "Weighed":
            self.weights[command[1]] = command[2]
        elif name == "Version":
            self.order, self.versions = self.newest_order(), numbers[0]
        elif name == "Opened":
            granted = grants(self.flows, self.line(0), self.left)
            self.open_run, self.notes = Run(len(self.journal), numbers[0], numbers[1], {self.flows[f].ingress: f for f in granted}), {}
        elif name == "Noted":
            self.notes[command[1]] = numbers[0]
        elif name == "Closed":
            for port, flow in self.open_run.granted.items():
                self.left[flow] -= self.notes.get(port, self.open_run.slots)
            self.next, self.open_run = self.open_run.first + self.open_run.slots, None
        elif name == "Skipped":
            self.next = numbers[0]
        self.journal.append(Entry(who, command, reply))
        return reply


def fault_of_stepped(seed, ports, coflows):
    """What is wrong with the answers of the plain master for long journals to a drawn list, or None."""
    r, one, other = random.Random(seed), Master(ports, coflows, 300), Stepped(ports, coflows, 300)
    for k in range(320):
        asked = command(r, ports, len(coflows))
        if one.is_in_range(*asked) and one.ask(0, asked) != other.ask(0, asked):
            return "command %d, %s, is answered %s and %s" % (k + 1, asked, one.journal[-1], other.journal[-1])
    return None


# The commands of a caller


class Draw:
    """The numbers that `hall_runs` draws."""

    def __init__(self, seed, caller):
        self.state = (seed + (caller << 32)) % 2**64

    def below(self, bound):
        self.state = (self.state * 6364136223846793005 + 1442695040888963407) % 2**64
        return (self.state >> 33) % 2**32 % bound

    def ask(self, coflows):
        """What a client asks; `rank` is a pull without a turn."""
        coflow, kind = self.below(coflows), self.below(200)
        if kind < 100:
            return "rank", coflow
        if kind < 160:
            return "pull", coflow
        if kind < 180:
            return "register", coflow
        if kind < 197:
            return "reweigh", coflow, self.below(9) + 1
        if kind < 199:
            return ("publish",)
        return ("pull" if self.below(16) else "withdraw"), coflow

    def order(self, coflows, ports):
        """What the driver asks."""
        kind = self.below(100)
        if kind < 30:
            return "open", self.below(8) + 1
        if kind < 55:
            return "short", self.below(ports), self.below(9)
        if kind < 90:
            return ("close",)
        if kind < 92:
            return "skip", self.below(1000)
        if kind < 96:
            return "register", self.below(coflows)
        if kind < 97:
            coflow = self.below(coflows)
            return ("register" if self.below(16) else "withdraw"), coflow
        return ("publish",)


def commands(seed, caller, count, coflows, ports):
    draw = Draw(seed, caller)
    return [draw.ask(coflows) if caller else draw.order(coflows, ports) for _ in range(count)]


# What was told

DONE = re.compile(r"Turn\(Done\(Receipt \{ position: (\d+), version: (\d+), reply: (.*) \}\)\)")
PULLED = re.compile(r"Pull\((Rank|Unranked|Moved) \{ (?:version|front): (\d+)(?:, (?:rank|found): (\d+))? \}\)")


class Journal:
    """The closed journal, as a plain master answers its commands: at each position the newest version, and for each version the position of its entry and the order."""

    def __init__(self, ports, coflows, asked):
        """Carries out the commands in the order of the journal, each with its caller."""
        self.master = Stepped(ports, coflows, len(asked) + 1)
        self.replies, self.versions, self.made, self.orders = [], [0], [0], [[]]
        for who, command_of in asked:
            reply = self.master.ask(who, command_of)
            self.replies.append(named(reply[0], reply[1:]))
            if reply[0] == "Version":
                self.made.append(len(self.replies))
                self.orders.append(self.master.order)
            self.versions.append(len(self.made) - 1)

    def rank(self, version, coflow):
        order = self.orders[version]
        return order.index(coflow) + 1 if coflow in order else 0


def fault_of_caller(journal, mine, asked, said):
    """What is wrong with what a caller was told, or None. Mine are the positions of its entries."""
    at, seen, last, moved = 0, 0, 0, 0
    for k, (command_of, line) in enumerate(zip(asked, said)):
        done, pulled = DONE.fullmatch(line), PULLED.fullmatch(line)
        if command_of[0] == "rank":
            if not pulled:
                return "answer %d is %s" % (k + 1, line)
            word, version, other = pulled[1], int(pulled[2]), int(pulled[3] or 0)
            if version < seen or version >= len(journal.made):
                return "answer %d is %s, and the version before is %d" % (k + 1, line, seen)
            seen = version
            if word == "Moved":
                moved += 1
                if other < version + 2 or other >= len(journal.made):
                    return "answer %d is %s" % (k + 1, line)
                continue
            if other != journal.rank(version, command_of[1]) or (word == "Rank") != (other > 0):
                return "answer %d is %s, and the rank is %d" % (k + 1, line, journal.rank(version, command_of[1]))
            if version and at < len(mine) and journal.made[version] >= mine[at]:
                return "answer %d is %s, and its version is no earlier than the next entry, %d" % (k + 1, line, mine[at])
        else:
            if not done or at >= len(mine):
                return "answer %d is %s" % (k + 1, line)
            position, version, reply = int(done[1]), int(done[2]), done[3]
            if (position, version, reply) != (mine[at], journal.versions[position], journal.replies[position - 1]) or position <= last or version < seen:
                return "answer %d is %s, and entry %d is %s at version %d" % (k + 1, line, mine[at], journal.replies[mine[at] - 1], journal.versions[mine[at]])
            at, last, seen = at + 1, position, version
    return None if at == len(mine) and len(said) == len(asked) else "%d answers to %d commands, and %d of %d entries" % (len(said), len(asked), at, len(mine))


def fault_of_hall(folder, seed, ports, coflows, count, tally):
    """What is wrong with a hall that is played, or None. How many entries, versions and moved pulls it had is added."""
    write(folder, "trace", trace_text(ports, coflows))
    ended = subprocess.run([PROGRAM, "trace", str(seed), str(count), "tell"], cwd=folder, stdin=subprocess.DEVNULL, capture_output=True, timeout=120, check=False)
    if ended.returncode or ended.stderr:
        return "exit code %d, %r" % (ended.returncode, ended.stderr[-200:])
    said, entries = [[] for _ in range(CALLERS)], []
    for line in ended.stdout.decode().splitlines():
        word, rest = line.split(" ", 1)
        if word == "entry":
            who, rest = rest.split(" ", 1)
            entries.append((int(who), rest))
        else:
            said[int(word)].append(rest)
    asked = [commands(seed, caller, count, len(coflows), ports) for caller in range(CALLERS)]
    turns = [iter([it for it in mine if it[0] != "rank"]) for mine in asked]
    taken = [(who, next(turns[who], None)) for who, _ in entries]
    if any(it is None for _, it in taken) or any(next(rest, None) for rest in turns):
        return "the journal has %d entries" % len(entries)
    journal = Journal(ports, coflows, taken)
    for k, ((who, it), (_, line), reply) in enumerate(zip(taken, entries, journal.replies)):
        if line != "%s %s" % (shown(it), reply):
            return "entry %d of caller %d is %s and not %s %s" % (k + 1, who, line, shown(it), reply)
    tally["entries"] += len(entries)
    tally["versions"] += len(journal.made) - 1
    tally["moved"] += sum("Moved" in line for lines in said for line in lines)
    faults = [fault_of_caller(journal, [k + 1 for k, (who, _) in enumerate(entries) if who == caller], asked[caller], said[caller]) for caller in range(CALLERS)]
    return next(("caller %d: %s" % (caller, fault) for caller, fault in enumerate(faults) if fault), None)


# The example of the page


def fault_of_example():
    """The first line of a block of docs/HALL.md that is not in the text of `test_support` or of `hall_tests`, or None. Blanks and ends of lines count for nothing."""
    def text(*parts):
        with open(os.path.join(TOP, *parts), encoding="utf-8") as it:
            return it.read()

    files = [("test_support", name) for name in ("begun.rt", "closed.rt", "small.rt")] + [("hall_tests", "example.rt")]
    sources = ["".join(text("crates", crate, "src", name).split()) for crate, name in files]
    blocks = re.findall(r"^```rust\n(.*?)^```", text("docs", "HALL.md"), re.M | re.S)
    if not blocks:
        return "there is no example"
    for block in blocks:
        if not any("".join(block.split()) in source for source in sources):
            return "no source has the text that begins with %r" % block.split("\n", 1)[0]
    return None


# The comparisons


def great(r):
    """Coflows on four ports, with so many units that runs go on to the end."""
    return 4, [Coflow(ident, r.sample(range(4), 2), [(end, r.randrange(1, 4000) * 10**6) for end in r.sample(range(4), 2)], 1) for ident in range(1, 25)]


def results(folder):
    """The name of each comparison and what is wrong, or None."""
    yield "the example of docs/HALL.md", fault_of_example()
    for seed in range(24):
        ports, coflows, _ = drawn(DRAWN[seed % len(DRAWN)], random.Random(seed))
        yield "the plain master for long journals, list %d" % seed, fault_of_stepped(seed, ports, coflows)
    for seed in range(12):
        tally = dict(entries=0, versions=0, moved=0)
        ports, coflows = CUBE if seed % 2 else great(random.Random(seed))
        yield "a hall of 1,600 commands, seed %d" % seed, fault_of_hall(folder, seed, ports, [coflow._replace(weight=1) for coflow in coflows], 200, tally)
    tally = dict(entries=0, versions=0, moved=0)
    fault = fault_of_hall(folder, 20, *great(random.Random(20)), 12500, tally)
    print("100,000 commands of %d callers: %d entries, %d versions, %d pulls moved" % (CALLERS, tally["entries"], tally["versions"], tally["moved"]))
    yield "a hall of 100,000 commands", fault


def main():
    build()
    with tempfile.TemporaryDirectory() as folder:
        return compared(results(folder))


if __name__ == "__main__":
    sys.exit(main())
