#!/usr/bin/env python3
"""Prints the tables of docs/RESULTS.md: how far the orders of policies are from the best, as certified, and when their coflows end. The programs are the built ones.

Use: bench/results.py            prints all tables, within a few minutes
     bench/results.py --small    prints the tables of the two small workloads of the repository alone
     bench/results.py --check    compares these with the page; the last line is 'N passed, M failed'
     bench/results.py --trace SEED    writes the trace of the public shape with this seed, whose coflows arrive over an hour
     bench/results.py --weights SEED  writes drawn weights from 1 to 100 for its 526 coflows

A ratio is a cost over the bound, rounded up. Workloads of one name have one row, with the least ratio and the greatest. Orders that `compare` does not have are made from the rows of
`sincronia_stats --csv`, and served.
"""
import os
import random
import re
import subprocess
import sys
import tempfile

sys.dont_write_bytecode = True  # the folder stays as it is

import traces  # noqa: E402

TOP = os.path.dirname(os.path.dirname(os.path.abspath(__file__)))
PAGE = os.path.join(TOP, "docs", "RESULTS.md")
PLANNER = os.path.join(TOP, "crates", "sincronia", "out", "sincronia")
STATS = os.path.join(TOP, "crates", "sincronia_stats", "out", "sincronia_stats")

SEEDS = range(1, 6)
FOLDS = ["count", "load"]
CLASSES = [1, 2, 4, 8, 16, 32, 64]
POLICIES = ["bssi", "sebf", "wsebf", "fifo"]
TIMED = ["bssi", "sebf", "fifo"]  # without weights `wsebf` is `sebf`
GROUPS = ["all", "short-narrow", "long-narrow", "short-wide", "long-wide"]
SMALL = ["four-jobs", "shuffle-24x40"]
REPLAYED = ["bssi", "sebf", "fifo"]  # without weights `wsebf` is `sebf`, and `attained` never learns of one that is there
SLOTS = [32, 128, 512]  # milliseconds: with units of 16 MB that is 4, 1 and 1/4 gigabit a second
EPOCHS = [16, 64, 1024]


def weights(seed, count=526):
    """A weight from 1 to 100 for each of the ids from 1 on."""
    r = random.Random(seed)
    return "".join("%d %d\n" % (ident, r.randint(1, 100)) for ident in range(1, count + 1)).encode()


class Workload:
    """A trace with its weights, if it has any, in a folder."""

    def __init__(self, name, folder, trace, weighed=None):
        self.name, self.folder = name, folder
        self.options = ["--weights", "weights"] if weighed else []
        for file, content in (("trace", trace), ("weights", weighed)):
            if content:
                with open(os.path.join(folder, file), "wb") as it:
                    it.write(content)

    def ran(self, program, words):
        """What the program prints, with the options of this workload."""
        return subprocess.run([program, *words, *self.options], cwd=self.folder, stdout=subprocess.PIPE, check=True, text=True).stdout

    def report(self, command, words):
        """The report of a command, put into the file `report`."""
        with open(os.path.join(self.folder, "report"), "w", encoding="ascii") as it:
            subprocess.run([PLANNER, command, "trace", *words, *self.options], cwd=self.folder, stdout=it, check=True)

    def rows(self):
        """The rows of all coflows: id, arrival, bottleneck and weight. Arrivals are those of the trace."""
        lines = self.ran(STATS, ["trace", "report", "--csv"]).splitlines()[1:]
        with open(os.path.join(self.folder, "trace"), encoding="ascii") as it:
            arrivals = [int(line.split(None, 2)[1]) for line in it.read().splitlines()[1:]]
        fields = [line.split(",") for line in lines]
        return [(int(f[0]), arrival, int(f[4]), int(f[5])) for f, arrival in zip(fields, arrivals)]

    def serve(self, policy):
        """Puts the report of a policy into the file `report`."""
        self.report("plan", [])
        if policy == "bssi":
            return
        keys = {
            "sebf": lambda row: row[2],
            "wsebf": lambda row: row[2] * 2**64 // row[3],
            "fifo": lambda row: row[1],
        }
        rows = sorted(enumerate(self.rows()), key=lambda it: (keys[policy](it[1]), it[0]))
        with open(os.path.join(self.folder, "order"), "w", encoding="ascii") as it:
            it.writelines("%d\n" % row[0] for _, row in rows)
        self.report("serve", ["order"])


def ratio(cost, bound):
    """The cost over the bound, in thousandths that are rounded up."""
    return "-" if bound == 0 else "%.3f" % (-(-1000 * cost // bound) / 1000)


def number(text, name):
    return int(re.search(r"^%s (\d+)$" % name, text, re.MULTILINE).group(1))


def table(heads, rows):
    lines = [" | ".join(["", *row, ""]).strip() for row in [heads, ["---"] * len(heads), *rows]]
    return "\n".join(lines) + "\n"


def span(ratios):
    """The least ratio and the greatest, or the one that they all are."""
    least, greatest = min(ratios, key=float), max(ratios, key=float)
    return least if least == greatest else f"{least}-{greatest}"


def spanned(rows):
    """One row for each name, in the order of the first ones: a row that is alone as it is, and else the spans of its cells."""
    by_name = {}
    for name, *cells in rows:
        by_name.setdefault(name, []).append(cells)
    return [[name, *(cells[0] if len(cells) == 1 else map(span, zip(*cells)))] for name, cells in by_name.items()]


def policy_row(work):
    """The ratios of the policies."""
    cells = []
    for policy in POLICIES:
        work.serve(policy)
        text = work.ran(STATS, ["trace", "report"])
        cells.append(ratio(number(text, "cost"), number(text, "bound")))
    return [work.name, *cells]


def class_row(work, fold):
    """The ratios of the order of `plan` in so many classes, folded by count or by load."""
    work.report("plan", [])
    bound = number(work.ran(STATS, ["trace", "report"]), "bound")
    costs = [number(work.ran(PLANNER, ["classes", "trace", "--classes", str(count), "--fold", fold]), "cost") for count in CLASSES]
    return [work.name, *[ratio(cost, bound) for cost in costs]]


def time_rows(work):
    """For each policy and group the completion times in slots."""
    rows = []
    for policy in TIMED:
        work.serve(policy)
        found = dict(re.findall(r"^slots (\S+) (.*)$", work.ran(STATS, ["trace", "report"]), re.MULTILINE))
        for group in GROUPS:
            words = found[group].split()
            rows.append([policy, group, *(words[::2] if len(words) > 1 else [words[0], "-", "-", "-", "-"])])
    return rows


def mean_table(work):
    """The mean completion times and those of 99 %, a row for each group."""
    rows = time_rows(work)
    heads = ["group", "coflows", *[f"{policy} {kind}" for kind in ("mean", "99 %") for policy in TIMED]]
    by_group = [rows[place :: len(GROUPS)] for place in range(len(GROUPS))]
    return table(heads, [[*of[0][1:3], *[row[3] for row in of], *[row[6] for row in of]] for of in by_group])


def replay_row(name, work, slot_ms, epoch):
    """How far policies are from the best where coflows arrive: costs over the greatest total, what arrivals cost taken off both. The last cell is that of `bssi` over the total of `online`."""
    words = ["trace", "--unit", "16", "--slot-ms", str(slot_ms), "--epoch", str(epoch)]
    text = work.ran(PLANNER, ["replay", *words])
    costs = dict(re.findall(r"^row \d+ (\w+) cost (\d+)$", text, re.MULTILINE))
    arrivals = number(text, "arrivals")
    net = number(text, "total") - arrivals
    printed = number(work.ran(PLANNER, ["online", *words]), "total")
    return [name, *[ratio(int(costs[policy]) - arrivals, net) for policy in REPLAYED], ratio(int(costs["bssi"]) - arrivals, printed - arrivals)]


def replay_table(works, epochs):
    """The replays of these workloads, by slots and epochs."""
    rows = [replay_row("%d ms, %d" % (slot_ms, epoch), work, slot_ms, epoch) for slot_ms in SLOTS for epoch in epochs for work in works]
    return table(["slot, slots of an epoch", *REPLAYED, "bssi, by `online`"], spanned(rows))


def tables_of(works, folds, timed):
    """Policies, classes by each fold, and times of these workloads."""
    yield table(["workload", *POLICIES], spanned(policy_row(work) for work in works))
    for fold in folds:
        yield table(["workload", *["%d" % count for count in CLASSES]], spanned(class_row(work, fold) for work in works))
    yield timed


def small_works(room):
    for name in SMALL:
        folder = os.path.join(room, name)
        os.mkdir(folder)
        with open(os.path.join(TOP, "traces", name + ".txt"), "rb") as it:
            yield Workload("`traces/%s.txt`" % name, folder, it.read())


def large_works(room):
    shapes = [("public shape", traces.hour(spread_out=True, seed=seed), None) for seed in SEEDS]
    shapes += [(name + ", weights", trace, weights(seed)) for seed, (name, trace, _) in zip(SEEDS, shapes)]
    shapes += [("wide", traces.wide(), None), ("narrow", traces.narrow(), None)]
    for place, (name, trace, weighed) in enumerate(shapes):
        folder = os.path.join(room, str(place))
        os.mkdir(folder)
        yield Workload(name, folder, trace, weighed)


def made(small):
    with tempfile.TemporaryDirectory() as room:
        works = list(small_works(room) if small else large_works(room))
        if small:
            return [*tables_of(works, FOLDS[1:], mean_table(works[-1])), replay_table(works[-1:], EPOCHS[:1])]
        return [*tables_of(works, FOLDS, mean_table(works[0])), replay_table(works[: len(SEEDS)], EPOCHS)]


def check():
    """Whether the page has the tables of the small workloads."""
    with open(PAGE, encoding="utf-8") as it:
        page = it.read()
    missing = [text for text in made(True) if text not in page]
    for text in missing:
        print("the page has not:\n" + text)
    print("%d passed, %d failed" % (4 - len(missing), len(missing)))
    return 1 if missing else 0


def main():
    words = sys.argv[1:]
    if words[:1] == ["--trace"]:
        sys.stdout.buffer.write(traces.hour(spread_out=True, seed=int(words[1])))
        return 0
    if words[:1] == ["--weights"]:
        sys.stdout.buffer.write(weights(int(words[1])))
        return 0
    if words == ["--check"]:
        return check()
    print("\n".join(made(words == ["--small"])), end="")
    return 0


if __name__ == "__main__":
    sys.exit(main())
