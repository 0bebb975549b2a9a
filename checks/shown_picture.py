"""What the picture of a plan shows, by a plain program that follows docs/PICTURE.md. `plain_picture.py` compares it with what is drawn."""
import math
from collections import namedtuple
from fractions import Fraction

from plain_plan import up

# 32 colours from matplotlib's "viridis", evenly from 0 to 0.88.
COLOURS = """
440154 460b5e 481668 481f70 482979 46327e 443a83 414287 3e4c8a 3a538b 375b8d 33628d 306a8e 2d718e 2a778e 277f8e
25858e 228c8d 20928c 1f9a8a 1fa188 22a785 27ad81 31b57b 3bbb75 48c16e 56c667 67cc5c 77d153 89d548 9dd93b b0dd2f
""".split()

# What a picture shows, each part as it is found in it. A bar is (port, first, last, id, colour), an id (x, y, colour, id), a mark (x, y), a step of the curve (x, completed), a line
# (x, top, end, dashes), a box (x, y, width, height, colour), a label (x, y, anchor, words).
Shown = namedtuple("Shown", "stroke bars ids marks curve lines boxes labels")


def runs_of(text):
    """The runs of a report, each with its first slot, its last slot and its flows."""
    runs, slots = [], 0
    for line in text.split("\n"):
        if line.startswith("run "):
            length, *flows = map(int, line.split()[1:])
            runs.append((slots + 1, slots + length, flows))
            slots += length
    return runs


def bars_of(flows, runs, side, ports, first, last):
    """For each port the stretches of the window in which it serves one coflow."""
    rows = [[] for _ in range(ports)]
    for start, end, numbers in runs:
        start, end = max(start, first), min(end, last)
        if start > end:
            continue
        for number in numbers:
            flow = flows[number]
            row = rows[(flow.ingress, flow.egress)[side]]
            if row and row[-1][0] == flow.coflow and row[-1][2] == start - 1:
                row[-1][2] = end
            else:
                row.append([flow.coflow, start, end])
    return rows


def order_of(text):
    """The ids of a report's places, place 1 first."""
    return [int(line.split()[2]) for line in text.split("\n") if line.startswith("place ")]


def parts_of(place, places):
    """Red, green and blue of a place that counts from 0."""
    colour = COLOURS[place * len(COLOURS) // places]
    return tuple(int(colour[k : k + 2], 16) for k in (0, 2, 4))


def rgb(parts):
    return "rgb(%d,%d,%d)" % parts


def ink_on(parts):
    """White on a dark colour, and black on a light one."""
    light = sum(Fraction(share, 10000) * part for share, part in zip((2126, 7152, 722), parts))
    return rgb((255, 255, 255) if light < 120 else (0, 0, 0))


def title_of(cost, bound):
    words = "cost %d, bound %d" % (cost, bound)
    if bound == 0:
        return words
    return words + ", at most %d.%02d times the best" % divmod(up(100 * cost, bound), 100)


def step_of(count):
    """The least of 1, 2 and 5 times a power of ten of which six are no fewer than the count."""
    power = 1
    while True:
        for step in (power, 2 * power, 5 * power):
            if 6 * step >= count:
                return step
        power *= 10


def slot_axis(first, last, end):
    """The marks of round slots below where bars or curve end, and the labels of the axis."""
    count = last - first + 1
    step = step_of(count)
    marks, labels = [], [(430, end + 36, "middle", "slot")]
    for slot in range(up(first, step) * step, last + 1, step):
        x = 70 + (2 * (slot - first) + 1) * 720 // (2 * count)
        marks.append((x, end, 1, 5, None))
        labels.append((x, end + 18, "middle", str(slot)))
    return marks, labels


def axes_of(ports, coflows, first, last):
    """The frames and the marks, and the labels of all axes."""
    high = min(16 * ports, 480)
    top = 80 + high + 80
    boxes, labels = [(70, 80, 720, high, "none"), (70, top, 720, 120, "none")], [(62, top + 4, "end", str(coflows)), (62, top + 124, "end", "0")]
    for end in (80 + high, top + 120):
        marks, words = slot_axis(first, last, end)
        boxes, labels = boxes + marks, labels + words
    for port in range(0, ports, step_of(ports)):
        y = 80 + (2 * port + 1) * high // (2 * ports)
        boxes.append((65, y, 5, 1, None))
        labels.append((62, y + 4, "end", str(port)))
    return boxes, labels


def legend_of(coflows, marked):
    """The squares, the labels and the mark of the legend."""
    squares = max(1, min(coflows, len(COLOURS)))
    size = 256 // squares
    boxes = [(850 + size * k, 80, size, 12, rgb(parts_of(k, squares))) for k in range(squares)]
    labels = [(850, 70, None, "place in the order"), (850, 108, None, "1"), (850 + size * squares, 108, "end", str(coflows))]
    labels += [(868, 132, None, "completes its coflow")] * marked
    return boxes, labels, [(856, 128)] * marked


def means_of(plan, weights, top, first, last):
    """The lines of the means, and the labels of the means: their words and the second line of the title."""
    whole = sum(weights)
    word = "mean completion" if set(weights) <= {1} else "weighted mean completion"
    lines, labels = [], []
    if whole == 0:
        return lines, labels
    tenths = (*divmod(math.ceil(Fraction(10 * plan.cost, whole)), 10), *divmod(math.floor(Fraction(10 * plan.bound, whole)), 10))
    labels.append((70, 44, None, word + " at most %d.%d slots, and no schedule's is below %d.%d" % tenths))
    for total, y, dashes, words in ((plan.cost, top + 14, None, word), (plan.bound, top + 34, "5 3", "no schedule's mean is below")):
        behind = Fraction(total, whole) - (first - 1)  # how many slots of the window lie before the mean
        if 0 <= behind <= last - first + 1:
            lines += [(70 + math.floor(720 * behind / (last - first + 1)), top, top + 120, dashes), (856, y - 12, y + 2, dashes)]
            labels.append((868, y, None, words))
    return lines, labels


def expected(plan, coflows, ports, side, first, last):
    """What the picture shows."""
    runs = runs_of(plan.text)
    order = order_of(plan.text)
    count, high = last - first + 1, min(16 * ports, 480)
    top = 80 + high + 80
    ends = [max([end for _, end, numbers in runs if any(plan.flows[f].coflow == c for f in numbers)], default=0) for c in range(len(coflows))]
    bars, ids, marks = [], [], []
    marked = high // ports >= 10
    for port, row in enumerate(bars_of(plan.flows, runs, side, ports, first, last)):
        y = 80 + (2 * port + 1) * high // (2 * ports)
        for c, start, end in row:
            colour = parts_of(order.index(coflows[c].ident), len(coflows))
            bars.append((port, start, end, coflows[c].ident, rgb(colour)))
            left, right = Fraction(720 * (start - first), count), Fraction(720 * (end - first + 1), count)
            if marked and math.floor(right - left) >= 6 * len(str(coflows[c].ident)) + 4:
                ids.append((70 + math.floor((left + right) / 2), y + 3, ink_on(colour), coflows[c].ident))
            if marked and end == ends[c]:
                marks.append((70 + math.floor(right), y))
    curve = [(max(end - first + 1, 0), sum(it <= end for it in ends)) for end in sorted(set(ends))]
    boxes, labels = axes_of(ports, len(coflows), first, last)
    squares, words, circles = legend_of(len(coflows), marked)
    lines, means = means_of(plan, [coflow.weight for coflow in coflows], top, first, last)
    labels += words + means + [(70, 24, None, title_of(plan.cost, plan.bound)), (70, top - 10, None, "completed coflows")]
    labels.append((70, 70, None, "%s ports, slots %d to %d" % (("ingress", "egress")[side], first, last)))
    stroke = "0.%03d" % min(math.floor(Fraction(1000 * count, 720)), 400)
    return Shown(stroke, bars, sorted(ids), sorted(marks + circles), curve, sorted(lines, key=str), sorted(boxes + squares, key=str), sorted(labels, key=str))
