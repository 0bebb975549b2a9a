#!/usr/bin/env python3
"""Draws online runs by the built program, and compares the text of each picture, byte for byte, with what a plain program makes of the run by the definitions.

Use: checks/plain_run_picture.py [RUNS]    The last line is 'N passed, M failed'; the exit code is 0 where none failed.

The built program serves each drawn trace as it arrives, and its report is drawn in a window of slots. So are reports of other hands: damaged ones, runs that wait longer or idle at the end,
and runs with other publishings. Where such a report, or another `--slot-ms`, is not right, or the window has no slot, the picture is to be refused with the line and the exit code of that.
A picture must be XML in which no two labels overlap; where `rsvg-convert` is there, it renders each one. The pictures of a worked run are those that were worked out by hand.
"""
import os
import random
import re
import subprocess
import sys
import tempfile
import xml.etree.ElementTree as tree
from collections import Counter

sys.dont_write_bytecode = True
from online_runs import Epoch, append, facts_of, first_reason, online_of, text_of
from plain_online import KINDS, OTHERS, WORKED, WORKED_TEXT, drawn, options_of, trace_text
from plain_picture import PLANNER, PROGRAM, RENDERER, SVG, crowded, ran, renders
from plain_plan import TOP, up, weights_text, write
from shown_picture import slot_axis

HANDS = 5  # so many reports of other hands are drawn of each trace

# The picture


def curve_of(times):
    """The times at which a count of them rises, each with the count by then."""
    return [(time, sum(it <= time for it in times)) for time in sorted(set(times))]


def edge_of(time, first, last):
    """Where a time lies from left: slots that end before the window are at its left edge."""
    return 70 + max(time - (first - 1), 0) * 720 // (last - first + 1)


LOOKS = {
    "arrived": "stroke-width='2' fill='#dddddd' stroke='#0072b2' stroke-dasharray='6 3'",
    "completed": "stroke-width='2' fill='#ffffff' stroke='#d55e00'",
}


def title_of(cost, total, arrivals):
    """Arrivals cost any schedule so much. Without them the cost is compared with the total."""
    words = "cost %d, no schedule that waits for arrivals costs less than %d" % (cost, total)
    if total <= arrivals:
        return words
    return words + "; without arrivals at most %d.%02d times the least" % divmod(up(100 * (cost - arrivals), total - arrivals), 100)


def curves_of(facts, online):
    """The arrivals and the ends of the coflows that have units: those that are completed in a slot."""
    pairs = [(time, end) for time, (_, end) in zip(facts.times, online.done) if end > 0]
    return {"arrived": [time for time, _ in pairs], "completed": [end for _, end in pairs]}


def arrivals_cost(facts, online):
    return sum(weight * time for weight, time, (_, end) in zip(facts.weights, facts.times, online.done) if end > 0)


def ticks_of(online, first, last):
    return [epoch.time for epoch in online.epochs if first - 1 <= epoch.time <= last]


def picture_of(facts, online, first, last):
    """The text of the picture."""
    curves, ticks = curves_of(facts, online), ticks_of(online, first, last)
    count = len(curves["completed"])
    lines = [
        "<svg xmlns='http://www.w3.org/2000/svg' version='1.1' width='1150' height='490' font-family='sans-serif' font-size='13'>",
        "<rect width='1150' height='490' fill='#ffffff'/>",
        "<text x='70' y='24' font-size='16'>%s</text>" % title_of(online.cost, online.total, arrivals_cost(facts, online)),
        "<text x='70' y='70'>coflows, slots %d to %d</text>" % (first, last),
        "<svg x='70' y='80' width='720' height='360' viewBox='70 80 720 360'>",
    ]
    for word, times in curves.items():
        steps = ["H%dV%d" % (edge_of(time, first, last), 440 - done * 360 // count) for time, done in curve_of(times) if time <= last]
        lines.append("<path d='M68 442%sH792V442Z' %s/>" % ("".join(steps), LOOKS[word]))
    lines += ["</svg>", "<path d='%s' stroke='#000000'/>" % "".join("M%d 430v10" % edge_of(time, first, last) for time in ticks)]
    lines += ["<rect x='70' y='80' width='720' height='360' fill='none' stroke='#000000'/>"]
    marks, (name, *numbers) = slot_axis(first, last, 440)
    for (x, y, wide, high, _), label in zip(marks, numbers):
        lines.append("<rect x='%d' y='%d' width='%d' height='%d'/>" % (x, y, wide, high) + label_text(*label))
    lines += [label_text(*label) for label in (name, (62, 84, "end", count), (62, 444, "end", 0))]
    for word, y in (("arrived", 86), ("completed", 106)):
        lines += ["<path d='M850 %dh24' %s/>" % (y, LOOKS[word]), "<text x='884' y='%d'>%s</text>" % (y + 4, word)]
    lines += ["<path d='M862 121v10' stroke='#000000'/>", "<text x='884' y='130'>orders published: %d</text>" % len(ticks), "</svg>", ""]
    return "\n".join(lines)


def label_text(x, y, anchor, words):
    return "<text x='%d' y='%d' text-anchor='%s'>%s</text>" % (x, y, anchor, words)


# Reports of other hands: whoever made a report, it is drawn where it is right


def waits(facts, online, r):
    """Nothing is done for some slots, and then what was done before."""
    length, runs = r.randint(1, 9), []
    for run in [(length, []), *online.runs]:
        append(runs, *run)
    done = [(ident, end + length if end > 0 else 0) for ident, end in online.done]
    cost = online.cost + length * sum(weight for weight, (_, end) in zip(facts.weights, online.done) if end > 0)
    return online._replace(runs=runs, done=done, cost=cost)


def idles(facts, online, r):
    """Slots behind the last completion."""
    runs = list(online.runs)
    append(runs, r.randint(1, 9), [])
    return online._replace(runs=runs)


def publishes(facts, online, r):
    """One more publishing, where the last slot ends or behind it."""
    return online._replace(epochs=[*online.epochs, Epoch(sum(length for length, _ in online.runs) + r.choice([0, 0, 1, 9]), [], 0)])


def needs_less(facts, online, r):
    """A total that says nothing beyond the arrivals, or hardly anything."""
    return online._replace(total=min(online.total, arrivals_cost(facts, online) + r.choice([0, 0, 1])))


OTHER_HANDS = [waits, idles, publishes, needs_less, *OTHERS]


# The comparison


def refused(code, line):
    return code, "", "sincronia_picture: %s\n" % line


WRONG = refused(1, "report: not right for this trace and these weights; sincronia check says why")


def window_of(slots, r):
    """The first and the last slot as they are asked for, or None where they are left out. The window may have no slot."""
    first = r.choice([None, 1, max(slots, 1), r.randint(1, slots + 1)])
    last = r.choice([None, max(slots, 1), slots + r.randint(1, 3), r.randint(first or 1, slots + 2), r.randint(1, slots + 1)])
    return first, last


def what_is_seen(facts, online, first, last):
    """The kinds of pictures that must be drawn, of which this is one."""
    curves, times = curves_of(facts, online), [epoch.time for epoch in online.epochs]
    return {
        "a ratio": online.total > arrivals_cost(facts, online),
        "no ratio": online.total <= arrivals_cost(facts, online),
        "no coflows": not curves["completed"],
        "coflows without units": 0 < len(curves["completed"]) < len(online.done),
        "completions before the window": any(end < first for end in curves["completed"]),
        "completions behind the window": any(end > last for end in curves["completed"]),
        "arrivals behind the window": any(time > last for time in curves["arrived"]),
        "arrivals together": len(set(curves["arrived"])) < len(curves["arrived"]),
        "publishings before the window": any(time < first - 1 for time in times),
        "publishings behind the window": any(time > last for time in times),
        "publishings at both ends": first - 1 in times and last in times,
        "no publishing": not ticks_of(online, first, last),
    }


SEEN = [*what_is_seen(facts_of(WORKED), online_of(WORKED), 1, 1), "no slot", "not right", "another slot-ms, right", "another slot-ms, not right"]


def drawn_fault(folder, instance, online, slot_ms, r, seen):
    """What is wrong with the picture of a report, whoever made it, or None."""
    facts, slots = facts_of(instance._replace(slot_ms=slot_ms)), sum(length for length, _ in online.runs)
    from_slot, to_slot = window_of(slots, r)
    words = ["trace", "report", "--weights", "weights", "--unit", str(instance.unit)]
    words += [] if slot_ms == 8 else ["--slot-ms", str(slot_ms)]
    words += ["--from", str(from_slot)] * (from_slot is not None) + ["--to", str(to_slot)] * (to_slot is not None)
    words += r.choice([[], [], ["--side", "in"], ["--side", "out"]])
    write(folder, "report", text_of(online))
    have = ran(folder, words)
    right = first_reason(facts, online).startswith("yes")
    first, last = from_slot or 1, min(slots if to_slot is None else to_slot, slots)
    kinds = ["another slot-ms, " + ("right" if right else "not right")] if slot_ms != instance.slot_ms else []
    if not right:
        want, kinds = WRONG, [*kinds, "not right"]
    elif last < first:
        want, kinds = refused(2, "window: no slot from %d to %d" % (first, last)), [*kinds, "no slot"]
    else:
        want = (0, picture_of(facts, online, first, last), "")
        kinds += ["pictures", *(kind for kind, has in what_is_seen(facts, online, first, last).items() if has)]
    seen.update(kinds)
    if have != want:
        return "%s\nhave %d %s%s\nwant %d %s%s\nfor\n%s" % (" ".join(words), *(have[0], have[2], have[1]), *(want[0], want[2], want[1]), text_of(online))
    if have[0] == 0 and not renders(have[1]):
        return "the renderer refuses the picture"
    return crowded(have[1]) if have[0] == 0 else None


def fault_of(folder, instance, r, seen):
    """What is wrong with the pictures of a trace's run and of those of other hands, or None."""
    facts, online = facts_of(instance), online_of(instance)
    write(folder, "trace", trace_text(instance))
    write(folder, "weights", weights_text(instance.coflows))
    if ran(folder, ["online", "trace", *options_of(instance)], PLANNER) != (0, text_of(online), ""):
        return "another run is served"
    fault = drawn_fault(folder, instance, online, instance.slot_ms, r, seen)
    other_ms = r.choice([max(1, instance.slot_ms - 1), instance.slot_ms + 1, 2 * instance.slot_ms, 1])
    fault = fault or drawn_fault(folder, instance, online, other_ms, r, seen)
    for _ in range(HANDS):
        other = r.choice(OTHER_HANDS)(facts, online, r)
        if other is not None:
            fault = fault or drawn_fault(folder, instance, other, instance.slot_ms, r, seen)
    return fault


# The worked run of `plain_online.py`, where coflow 2 arrives when two slots are over: the options, and what was worked out by hand of the pictures. These are the words of the title behind
# those of the cost, the steps of arrivals and of completions, and the places of the ticks.
LEAST = "cost 12, no schedule that waits for arrivals costs less than 10; without arrivals at most "
WORKED_PICTURES = [
    ([], LEAST + "1.25 times the least", [(70, 260), (275, 80)], [(584, 260), (790, 80)], [70, 481]),
    (["--from", "3", "--to", "5"], LEAST + "1.25 times the least", [(70, 260), (70, 80)], [(790, 260)], [550]),
    (["--from", "6"], LEAST + "1.25 times the least", [(70, 260), (70, 80)], [(70, 260), (790, 80)], []),
    (["--to", "1", "--side", "out"], LEAST + "1.25 times the least", [(70, 260)], [], [70]),
    (["--slot-ms", "5"], LEAST + "1.34 times the least", [(70, 260), (481, 80)], [(584, 260), (790, 80)], [70, 481]),
]
USAGE = "usage: sincronia_picture TRACE REPORT|--policies [--weights FILE] [--unit MEGABYTES] [--from SLOT] [--to SLOT] [--side in|out] [--slot-ms MILLISECONDS]"
WORKED_REFUSALS = [
    (["t", "r", "--from", "8"], refused(2, "window: no slot from 8 to 7")),
    (["t", "r", "--from", "8", "--to", "9"], refused(2, "window: no slot from 8 to 7")),
    (["t", "r", "--from", "3", "--to", "2"], refused(2, "window: no slot from 3 to 2")),
    (["t", "r", "--slot-ms", "16"], WRONG),  # the total is 9 where coflow 2 arrives a slot earlier
    (["t", "r", "--slot-ms", "3"], WRONG),  # and where it arrives two slots later still, it is served too early
    (["t", "r", "--slot-ms", "16", "--from", "8"], WRONG),
    (["t", "r", "--unit", "2"], WRONG),
    (["other", "r"], WRONG),
    (["t", "cut"], refused(5, "report: line 6")),
    (["t", "r", "--slot-ms", "0"], refused(2, USAGE)),
    (["t", "r", "--slot-ms", "8", "--slot-ms", "8"], refused(2, USAGE)),
    (["t", "r", "--epoch", "4"], refused(2, USAGE)),
]


def parts_of(text):
    """The words of the title, the steps of both curves and the places of the ticks, as an XML parser finds them."""
    root = tree.fromstring(text)
    steps = [[tuple(map(int, step)) for step in re.findall(r"H(\d+)V(\d+)", path.get("d"))[:-1]] for path in root.findall(SVG + "svg/" + SVG + "path")]
    ticks = root.find(SVG + "path").get("d")
    return (root.find(SVG + "text").text, *steps, [int(x) for x in re.findall(r"M(\d+) 430v10", ticks)])


def worked(folder):
    """How many worked rows there are, and how many of them are not as they were worked out."""
    write(folder, "t", trace_text(WORKED))
    write(folder, "r", WORKED_TEXT)
    write(folder, "cut", "".join(WORKED_TEXT.splitlines(True)[:5]))
    write(folder, "other", trace_text(WORKED).replace(":6.", ":5."))
    wrong = 0
    for options, *parts in WORKED_PICTURES:
        have = ran(folder, ["t", "r", *options])
        if (have[0], have[2]) != (0, "") or parts_of(have[1]) != tuple(parts):
            print("FAILED %s: %r" % (" ".join(options), have))
            wrong += 1
    for words, want in WORKED_REFUSALS:
        have = ran(folder, words)
        if have != want:
            print("FAILED %s: %r and not %r" % (" ".join(words), have, want))
            wrong += 1
    return len(WORKED_PICTURES) + len(WORKED_REFUSALS), wrong


def main():
    for script in ("sincronia", "sincronia_picture"):
        subprocess.run([os.path.join(TOP, script)], stdout=subprocess.DEVNULL, stderr=subprocess.DEVNULL, check=False)
    if not os.path.exists(PROGRAM) or not os.path.exists(PLANNER):
        print("the program could not be built\n0 passed, 1 failed")
        return 1
    if RENDERER is None:
        print("rsvg-convert is not there: no picture is rendered")
    count, failed, seen = int(sys.argv[1]) if len(sys.argv) > 1 else 60, 0, Counter()
    with tempfile.TemporaryDirectory() as folder:
        for seed in range(count):
            r = random.Random(seed)
            instance = drawn(KINDS[seed % len(KINDS)], r)
            fault = fault_of(folder, instance, r, seen)
            if fault:
                print("trace %d: %s\n%s%s" % (seed, fault, trace_text(instance), " ".join(options_of(instance))))
                failed += 1
        rows, wrong = worked(folder)
    missing = [kind for kind in SEEN if seen[kind] == 0]
    if missing:
        print("never drawn: %s" % ", ".join(missing))
    print("%d pictures of %d traces; %d reports were not right, and %d windows had no slot" % (seen["pictures"], count, seen["not right"], seen["no slot"]))
    failed += wrong + bool(missing)
    print("%d passed, %d failed" % (count + rows + 1 - failed, failed))
    return 1 if failed else 0


if __name__ == "__main__":
    sys.exit(main())
