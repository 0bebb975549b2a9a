#!/usr/bin/env python3
"""Draws reports by the built program, and compares what an XML parser finds in the picture with the bars and the curve that a plain program makes of the report.

Use: checks/plain_picture.py [REPORTS]     The last line is 'N passed, M failed'; the exit code is 0 where none failed.
     checks/plain_picture.py --write       writes docs/picture.svg, the picture of traces/shuffle-24x40.txt, anew.

The bars, their coflows, their colours and the line around them, the ids and marks on them, the curve, the lines of the means, the frames, the axes, the title and the legend are compared, no
two labels overlap, no id is wider than its bar, and the bars of a worked schedule are those that were worked out by hand. Refusals of windows, sides and too many bars are tried, and
docs/picture.svg is compared. Where `rsvg-convert` is there, each picture is rendered by it too.
A drawn trace whose schedule has no slot has no picture: it is to be refused, and such traces are counted apart.
"""
import os
import random
import re
import shutil
import subprocess
import sys
import tempfile
import xml.etree.ElementTree as tree

sys.dont_write_bytecode = True
from plain_plan import KINDS, TOP, drawn, plan_of, trace_text, weights_text, write
from shown_picture import Shown, expected, runs_of

PROGRAM = os.path.join(TOP, "crates", "sincronia_picture", "out", "sincronia_picture")
PLANNER = os.path.join(TOP, "crates", "sincronia", "out", "sincronia")
SHOWN = os.path.join(TOP, "docs", "picture.svg")
RENDERER = shutil.which("rsvg-convert")
SVG = "{http://www.w3.org/2000/svg}"
DIGIT = 8.3  # how wide a digit of a label is at most
OTHER = 7.0  # and another sign, where there are several


def number(it, *names):
    """The attributes of these names as numbers."""
    return tuple(int(it.get(name)) for name in names)


def found(text, first):
    """What the parser finds in a picture, each part as `expected` has it."""
    root = tree.fromstring(text)
    bars, curve = root.findall(SVG + "svg")
    rects = [
        ((int(it.get("y")) - 1) // 10, int(it.get("x")) + first, int(it.get("x")) + first + int(it.get("width")) - 1, int(it[0].text.split()[1]), it.get("fill"))
        for it in bars.iter(SVG + "rect")
    ]
    coflows = int(curve.get("viewBox").split()[3])
    steps = re.findall(r"H(\d+)V(\d+)", curve[0].get("d"))[:-1]
    ids = [(*number(it, "x", "y"), it.get("fill"), int(it.text)) for it in root.findall(SVG + "g/" + SVG + "text")]
    lines = [(*map(int, re.fullmatch(r"M(\d+) (\d+)V(\d+)", it.get("d")).groups()), it.get("stroke-dasharray")) for it in root.findall(SVG + "path")]
    # The first box is the ground.
    boxes = [(*number(it, "x", "y", "width", "height"), it.get("fill")) for it in root.findall(SVG + "rect")[1:]]
    labels = [(*number(it, "x", "y"), it.get("text-anchor"), it.text) for it in root.findall(SVG + "text")]
    circles = [number(it, "cx", "cy") for it in root.iter(SVG + "circle")]
    shown_steps = [(int(x), coflows - int(y)) for x, y in steps]
    return Shown(bars.get("stroke-width"), rects, sorted(ids), sorted(circles), shown_steps, sorted(lines, key=str), sorted(boxes, key=str), sorted(labels, key=str))


def wide(words):
    """How wide a label is at most."""
    return sum(DIGIT if it.isdigit() else OTHER for it in words)


def squeezed(text):
    """An id that is wider than its bar, or None."""
    root = tree.fromstring(text)
    bars = root.find(SVG + "svg")
    scale = 720 / int(bars.get("viewBox").split()[2])
    spans = [(int(it[0].text.split()[1]), 70 + scale * int(it.get("x")), scale * int(it.get("width"))) for it in bars.iter(SVG + "rect")]
    for it in root.findall(SVG + "g/" + SVG + "text"):
        x, half = int(it.get("x")), 9 / 13 * DIGIT * len(it.text) / 2
        if not any(ident == int(it.text) and left <= x - half and x + half <= left + size for ident, left, size in spans):
            return "%s is wider than its bar" % it.text
    return None


def crowded(text):
    """Two labels that overlap, or one that is cut, or None. The title may be cut."""
    root = tree.fromstring(text)
    places = []
    for it in root.findall(SVG + "text"):
        if it.get("y") in ("24", "44"):
            continue
        size, x, y = wide(it.text), int(it.get("x")), int(it.get("y"))
        left = x - {None: 0, "middle": size / 2, "end": size}[it.get("text-anchor")]
        places.append((left, left + size, y - 10, y + 3, it.text))
    for k, (left, right, top, bottom, words) in enumerate(places):
        if left < 0 or right > int(root.get("width")) or bottom > int(root.get("height")):
            return "%s is cut" % words
        for other in places[:k]:
            if left < other[1] and other[0] < right and top < other[3] and other[2] < bottom:
                return "%s and %s overlap" % (other[4], words)
    return None


def ran(folder, words, program=PROGRAM):
    """The exit code, the standard output and the standard error of the built program."""
    ended = subprocess.run([program, *words], cwd=folder, stdin=subprocess.DEVNULL, capture_output=True, timeout=60)
    return ended.returncode, ended.stdout.decode(), ended.stderr.decode()


def renders(text):
    """Whether the renderer makes an image of the picture, where there is one."""
    if RENDERER is None:
        return True
    made = subprocess.run([RENDERER], input=text.encode(), capture_output=True, timeout=60)
    return made.returncode == 0 and made.stdout.startswith(b"\x89PNG")


NO_SLOT = "no slot"


def fault_of(folder, ports, coflows, unit, r):
    """What is wrong with the picture of a trace's plan, `NO_SLOT` where it has no slot and is refused, or None."""
    plan = plan_of(ports, coflows, unit)
    write(folder, "trace", trace_text(ports, coflows))
    write(folder, "weights", weights_text(coflows))
    write(folder, "report", plan.text)
    slots = sum(end - start + 1 for start, end, _ in runs_of(plan.text))
    options = ["--weights", "weights", "--unit", str(unit)]
    if slots == 0:
        refused = (2, "", "sincronia_picture: window: no slot from 1 to 0\n")
        return NO_SLOT if ran(folder, ["trace", "report", *options]) == refused else "a picture without slots"
    first = r.randint(1, slots)
    last = r.randint(first, slots + 2)
    side = r.randint(0, 1)
    window = ["--from", str(first), "--to", str(last), "--side", ("in", "out")[side]]
    code, text, line = ran(folder, ["trace", "report", *options, *window])
    if (code, line) != (0, ""):
        return "no picture: %d %s" % (code, line)
    have, want = found(text, first), expected(plan, coflows, ports, side, first, min(last, slots))
    for part in Shown._fields:
        if getattr(have, part) != getattr(want, part):
            return "another %s: %r and not %r" % (part, getattr(have, part), getattr(want, part))
    if not renders(text):
        return "the renderer refuses the picture"
    return crowded(text) or squeezed(text)


# A trace of three coflows on 151 locations, the runs of its plan, and the bars of its ports, worked out by hand: each with its side, the window, the bars as (port, first slot, last slot, id).
WORKED_TRACE = "150 3\n1 0 1 20 1 93:1\n2 0 1 7 2 7:2 93:5\n3 0 3 20 64 110 2 38:7 93:1\n"
WORKED_RUNS = ["run 1 0 1 5", "run 1 1 3", "run 2 2 3", "run 1 4 5", "run 2 2 6", "run 1 2"]
WORKED = [
    ("in", 1, 8, [(7, 1, 4, 2), (7, 6, 8, 2), (20, 1, 1, 1), (20, 2, 5, 3), (64, 1, 1, 3), (64, 5, 5, 3), (110, 6, 7, 3)]),
    ("out", 1, 8, [(7, 1, 2, 2), (38, 1, 7, 3), (93, 1, 1, 1), (93, 3, 4, 2), (93, 5, 5, 3), (93, 6, 8, 2)]),
    ("in", 3, 6, [(7, 3, 4, 2), (7, 6, 6, 2), (20, 3, 5, 3), (64, 5, 5, 3), (110, 6, 6, 3)]),
    ("out", 2, 2, [(7, 2, 2, 2), (38, 2, 2, 3)]),
    ("out", 8, 8, [(93, 8, 8, 2)]),
]
WORKED_CURVE = [(1, 1), (7, 2), (8, 3)]


def worked(folder):
    """How many worked rows there are, and how many of them are not as they were worked out."""
    write(folder, "w", WORKED_TRACE)
    plan = ran(folder, ["plan", "w"], PLANNER)[1]
    write(folder, "p", plan)
    if [line for line in plan.split("\n") if line.startswith("run ")] != WORKED_RUNS:
        print("FAILED the worked schedule: %s" % plan)
        return len(WORKED), len(WORKED)
    wrong = 0
    for side, first, last, bars in WORKED:
        code, text, line = ran(folder, ["w", "p", "--side", side, "--from", str(first), "--to", str(last)])
        have = found(text, first) if code == 0 else None
        if have is None or [bar[:4] for bar in have.bars] != bars or (first == 1 and have.curve != WORKED_CURVE):
            print("FAILED %s %d %d: %d %s%r" % (side, first, last, code, line, have))
            wrong += 1
    return len(WORKED), wrong


MOST_BARS = 2**18


def served_in_turn(folder, units):
    """Writes a trace `m` of two coflows between one pair of ports, and a report `n` of it that serves them slot by slot in turn: it has a bar for each unit. Order and bound are those of the
    program's own plan."""
    write(folder, "m", "1 2\n1 0 1 0 1 1:%d\n2 0 1 0 1 1:%d\n" % (units, units))
    plan = ran(folder, ["plan", "m"], PLANNER)[1].split("\n")
    front = [line for line in plan if line.split(" ")[0] in ("sincronia", "bound", "slack")]
    # A line has a place, an id, a port, a price, the slot in which the coflow is completed, and a weight.
    places = [line.split(" ") for line in plan if line.startswith("place ")]
    for place in places:
        place[-2] = str(2 * units - 2 + int(place[2]))
    front[1:1] = [" ".join(place) for place in places]
    write(folder, "n", "\n".join([*front, "cost %d" % (4 * units - 1), *["run 1 0", "run 1 1"] * units, "end", ""]))


def many_bars(folder):
    """As many bars as a picture may have are drawn, and two more are not, unless a window has fewer. How many rows there are, and how many of them are wrong."""
    limit = "sincronia_picture: limit: bars %d, at most %d are drawn; choose a window with --from and --to\n" % (MOST_BARS + 2, MOST_BARS)
    rows = [(MOST_BARS, [], 0, MOST_BARS, ""), (MOST_BARS + 2, [], 7, 0, limit), (MOST_BARS + 2, ["--from", "3"], 0, MOST_BARS, "")]
    wrong = 0
    for bars, window, code, drawn_bars, line in rows:
        served_in_turn(folder, bars // 2)
        have = ran(folder, ["m", "n", *window])
        if (have[0], have[1].count("<title>"), have[2]) != (code, drawn_bars, line):
            print("FAILED %d bars %s: %d, %d drawn, %s" % (bars, " ".join(window), have[0], have[1].count("<title>"), have[2]))
            wrong += 1
    return len(rows), wrong


def refusals(folder):
    """Refused words and files, each with the exit code and the line that it gets."""
    shutil.copy(os.path.join(TOP, "traces", "three-jobs.txt"), os.path.join(folder, "t"))
    shutil.copy(os.path.join(TOP, "traces", "shuffle-24x40.txt"), os.path.join(folder, "other"))
    write(folder, "r", ran(folder, ["plan", "t"], PLANNER)[1])
    usage = "usage: sincronia_picture TRACE REPORT|--policies [--weights FILE] [--unit MEGABYTES] [--from SLOT] [--to SLOT] [--side in|out] [--slot-ms MILLISECONDS]"
    right = "report: not right for this trace and these weights; sincronia check says why"
    rows = [
        (["t", "r", "--from", "3", "--to", "2"], 2, "window: no slot from 3 to 2"),
        (["t", "r", "--from", "6"], 2, "window: no slot from 6 to 5"),
        (["t", "r", "--side", "up"], 2, usage),
        (["t", "r", "--from", "0"], 2, usage),
        (["t", "r", "--from", "1", "--from", "1"], 2, usage),
        (["t"], 2, usage),
        (["other", "r"], 1, right),
        (["t", "r", "--unit", "2"], 1, right),
        (["t", "t"], 5, "report: line 1"),
        (["r", "r"], 3, "trace: bad header"),
        (["t", "none"], 8, "read fault"),
    ]
    wrong = 0
    for words, code, line in rows:
        have = ran(folder, words)
        if have != (code, "", "sincronia_picture: %s\n" % line):
            print("FAILED %s: %r" % (" ".join(words), have))
            wrong += 1
    return len(rows), wrong


def shown(folder):
    """The picture of the repository's trace."""
    trace = os.path.join(TOP, "traces", "shuffle-24x40.txt")
    write(folder, "report", ran(folder, ["plan", trace], PLANNER)[1])
    return ran(folder, [trace, "report"])[1]


def main():
    for script in ("sincronia", "sincronia_picture"):
        subprocess.run([os.path.join(TOP, script)], stdout=subprocess.DEVNULL, stderr=subprocess.DEVNULL, check=False)
    if not os.path.exists(PROGRAM) or not os.path.exists(PLANNER):
        print("the program could not be built\n0 passed, 1 failed")
        return 1
    with tempfile.TemporaryDirectory() as folder:
        if sys.argv[1:] == ["--write"]:
            write(os.path.dirname(SHOWN), os.path.basename(SHOWN), shown(folder))
            return 0
        if RENDERER is None:
            print("rsvg-convert is not there: no picture is rendered")
        count = int(sys.argv[1]) if len(sys.argv) > 1 else 300
        passed = failed = without = 0
        for seed in range(count):
            r = random.Random(seed)
            trace = drawn(KINDS[seed % len(KINDS)], r)
            fault = fault_of(folder, *trace, r)
            if fault == NO_SLOT:
                without += 1
                continue
            failed += fault is not None
            passed += fault is None
            if fault:
                print("trace %d: %s\n%s" % (seed, fault, trace_text(*trace[:2])))
        print("%d pictures of %d traces; %d without slots were refused" % (passed, count, without))
        rows, wrong = (sum(pair) for pair in zip(refusals(folder), worked(folder), many_bars(folder)))
        with open(SHOWN, encoding="utf-8") as file:
            stale = file.read() != shown(folder)
        if stale:
            print("docs/picture.svg is not the picture of traces/shuffle-24x40.txt: write it anew by checks/plain_picture.py --write")
        passed, failed = passed + rows - wrong + (not stale), failed + wrong + stale
    print("%d passed, %d failed" % (passed, failed))
    return 1 if failed else 0


if __name__ == "__main__":
    sys.exit(main())
