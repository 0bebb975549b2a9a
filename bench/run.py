#!/usr/bin/env python3
"""Times the built program on traces that `bench/traces.py` makes. It is a benchmark and no test.

Use: bench/run.py [--peer 'PROGRAM WORD ..'] [SHAPE ..]
     bench/run.py picture      draws windows of 1000 slots of a large plan alone; the exit code is 1 where one takes more than its bound
     bench/run.py compare      times a comparison alone, beside the serving of one order
     bench/run.py [--peer 'PROGRAM WORD ..'] online      times online runs alone, and the check of one
     bench/run.py [--peer 'PROGRAM WORD ..'] slow        runs once each what takes longest within the limits
     bench/run.py [--peer 'PROGRAM WORD ..'] hall        times plans by a hall alone, by one agent and by four, beside `classes`, which serves its order without a hall

First, on each shape of load, the commands `plan` and `check`, output to /dev/null: seconds of the processor, the least of three runs, and the peak of memory. `--peer` names another program
with the same commands, words behind it included; it runs in turn with ours, and the ratios to it are printed beside. Shapes on the command line are the only ones that run.
At the end the figures stand as one table in Markdown, with the date, the machine and how busy it was, and beside it how `plan` grows with the units and with the coflows.
Then, with no shape named, the limits of the text and of the table, one run each, `compare` beside the serving of one order, which `perf` tells apart where it is there, online runs, plans by a hall beside `classes`, and
the windows of a large plan.
"""
import datetime
import os
import platform
import re
import resource
import shlex
import shutil
import subprocess
import sys
import tempfile

sys.dont_write_bytecode = True  # the folder stays as it is

import traces  # noqa: E402

TOP = os.path.dirname(os.path.dirname(os.path.abspath(__file__)))
PROGRAM = os.path.join(TOP, "crates", "sincronia", "out", "sincronia")
PICTURE = os.path.join(TOP, "crates", "sincronia_picture", "out", "sincronia_picture")

RUNS = 3

# What `perf` calls the functions that serve an order without a hall.
SERVING = re.compile(r"matching::|slot_switch::")

# shape: trace, words behind the files
SHAPES = {
    "fb": (traces.hour, ["--unit", "1"]),
    "fb-16": (traces.hour, ["--unit", "16"]),
    "fb-scale-2": (lambda: traces.hour(2), ["--unit", "1"]),
    "fb-half": (lambda: traces.hour(1, 263), ["--unit", "1"]),
    "wide": (traces.wide, []),
    "narrow": (traces.narrow, []),
    "deep": (lambda: traces.deep(1, 0), []),
    "deep-8-8": (lambda: traces.deep(8, 8), []),
    "staircase": (traces.staircase, []),
}

# what grows, the greater shape, the lesser one
GROWTH = [
    ("twice the units", "fb-scale-2", "fb"),
    ("twice the coflows", "fb", "fb-half"),
]

# name, trace, words behind `plan t`, seconds that the run is to take at most
LIMITS = [
    ("plan, 4096 coflows of 256 MB over 1024 ports", traces.spread, [], 10),
    ("plan, one coflow of 2^20 MB", traces.large, [], 10),
    ("plan, 4096 coflows of 256 MB from port 0 to port 0", traces.one_pair, [], None),
    ("plan, 4096 coflows of one flow over 1024 ports", traces.narrow, [], 1),
    ("plan, 50 MB of lines of 3040 mappers", traces.many_fields, [], 2),
    ("plan, 64 MB of lines on one location", traces.one_location, [], 10),
    ("plan, 64 MB of lines on 48 locations a side", traces.many_locations, [], 10),
    ("plan, the shape of the public trace, --unit 16", traces.hour, ["--unit", "16"], 10),
]

# What takes longest within the limits: name, trace, words with the trace as `t`.
SLOW = [
    ("plan, 4096 coflows of 16 x 16 flows of mixed sizes", traces.mixed, ["plan", "t"]),
    ("plan, one coflow of 1024 x 1024 flows, reducers to 10^9 MB", lambda: traces.deep(1, 976_560), ["plan", "t"]),
    ("online, 4096 coflows together, --epoch 64", traces.wide, ["online", "t", "--epoch", "64"]),
    ("online, 2^20 flows on one port", traces.staircase, ["online", "t"]),
    ("compare, 4096 coflows together", traces.wide, ["compare", "t"]),
]

# windows of the plan of the trace of the shape of the public one, units of 1 MB: words behind `t r`
WINDOWS = [
    ["--from", "1", "--to", "1000"],
    ["--from", "50001", "--to", "51000", "--side", "in"],
    ["--from", "50001", "--to", "51000", "--side", "out"],
]
WINDOW_BOUND = 2  # seconds


def put(folder, name, make):
    """Writes what `make` makes, in a process of its own: the peak memory of a run counts what the process that starts it holds."""
    pid = os.fork()
    if pid == 0:
        with open(os.path.join(folder, name), "wb") as file:
            file.write(make())
        os._exit(0)
    os.waitpid(pid, 0)


def planned(folder, options):
    """Writes the report of the plan of `t` to `r`."""
    with open(os.path.join(folder, "r"), "wb") as file:
        subprocess.run([PROGRAM, "plan", "t", *options], cwd=folder, stdout=file, check=False)


def measured(command, folder):
    """Seconds of the processor, peak memory in MiB and exit code of a run in a process of its own, output to /dev/null. Other work on the machine counts little so."""
    reader, writer = os.pipe()
    pid = os.fork()
    if pid == 0:
        os.close(reader)
        code = subprocess.run(command, cwd=folder, stdout=subprocess.DEVNULL, stderr=subprocess.DEVNULL, timeout=900, check=False).returncode
        usage = resource.getrusage(resource.RUSAGE_CHILDREN)
        os.write(writer, ("%f %f %d" % (usage.ru_utime + usage.ru_stime, usage.ru_maxrss / 1024, code)).encode())
        os._exit(0)
    os.close(writer)
    with os.fdopen(reader) as pipe:
        seconds, memory, code = pipe.read().split()
    os.waitpid(pid, 0)
    return float(seconds), float(memory), int(code)


def phase(command, words, peer, folder):
    """One line for a command: our least seconds and the peak of memory, and the ratios to the peer's. Gives the seconds and the two ratios, which are None without a peer."""
    ours, theirs = [], []
    for _ in range(RUNS):
        ours.append(measured([PROGRAM, command, *words], folder))
        if peer:
            theirs.append(measured([*peer, command, *words], folder))
    seconds, memory, code = min(ours)
    line = "  %-6s %8.3f s  %5d MiB  code %d" % (command, seconds, memory, code)
    ratio, memory_ratio = None, None
    if peer:
        other, held, answer = min(theirs)
        ratio, memory_ratio = seconds / other, memory / held
        line += "   peer %8.3f s  %5d MiB  code %d   ratios %.2f, memory %.2f" % (other, held, answer, ratio, memory_ratio)
    print(line, flush=True)
    return seconds, ratio, memory_ratio


def shapes(names, peer, folder):
    rows = {}
    for name in names:
        make, options = SHAPES[name]
        print(name, flush=True)
        put(folder, "t", make)
        plan = phase("plan", ["t", *options], peer, folder)
        planned(folder, options)
        rows[name] = (plan, phase("check", ["t", "r", *options], peer, folder))
    table(rows)


def cell(figure):
    return "" if figure is None else "%.2f" % figure


def table(rows):
    """All figures once more, as one table, and how `plan` grows."""
    print("\n%s, %s, %d processors, load %.1f" % (datetime.date.today(), platform.machine(), os.cpu_count(), os.getloadavg()[0]))
    print("| trace | `plan` | ratio | memory, ratio | `check` | ratio | memory, ratio |\n|---|---|---|---|---|---|---|")
    for name, phases in rows.items():
        print("| `%s` | %s |" % (name, " | ".join("%.3f s | %s | %s" % (seconds, cell(ratio), cell(memory)) for seconds, ratio, memory in phases)))
    for grown, greater, lesser in GROWTH:
        if greater in rows and lesser in rows:
            print("%s: `plan` takes %.2f times as long" % (grown, rows[greater][0][0] / rows[lesser][0][0]))


def limit(name, command, bound, folder):
    seconds, memory, code = measured(command, folder)
    line = "%-55s %8.2f s  %5d MiB  code %d" % (name, seconds, memory, code)
    if bound is not None:
        line += "  (bound %d s)" % bound
    print(line, flush=True)


def limits(folder):
    for name, make, options, bound in LIMITS:
        put(folder, "t", make)
        limit(name, [PROGRAM, "plan", "t", *options], bound, folder)
    put(folder, "t", traces.hour)
    planned(folder, ["--unit", "16"])
    limit("check, the shape of the public trace, --unit 16", [PROGRAM, "check", "t", "r", "--unit", "16"], 5, folder)
    put(folder, "t", lambda: traces.many_runs()[0])
    put(folder, "r", lambda: traces.many_runs()[1])
    limit("check, a report of 2^20 runs", [PROGRAM, "check", "t", "r"], 5, folder)


def windows(folder):
    """Draws each window, and tells the least seconds of three runs. Answers how many took more than the bound or were not drawn."""
    put(folder, "t", traces.hour)
    planned(folder, ["--unit", "1"])
    print("windows of 1000 slots, units of 1 MB, a report of %d MB" % (os.path.getsize(os.path.join(folder, "r")) // 10**6), flush=True)
    over = 0
    for words in WINDOWS:
        seconds, memory, code = min(measured([PICTURE, "t", "r", "--unit", "1", *words], folder) for _ in range(RUNS))
        print("  %-40s %8.2f s  %5d MiB  code %d  (bound %d s)" % (" ".join(words), seconds, memory, code, WINDOW_BOUND), flush=True)
        over += code != 0 or seconds >= WINDOW_BOUND
    return over


def serving_share(words, folder):
    """Which part of the time of `classes` goes into serving its order. None where `perf` does not tell."""
    if shutil.which("perf") is None:
        return None
    record = ["perf", "record", "-q", "-F", "1999", "-o", "perf.data", PROGRAM, *words]
    subprocess.run(record, cwd=folder, stdout=subprocess.DEVNULL, stderr=subprocess.DEVNULL, check=False)
    report = ["perf", "report", "-i", "perf.data", "--stdio", "-q", "--no-children", "--sort", "symbol"]
    lines = subprocess.run(report, cwd=folder, stdout=subprocess.PIPE, stderr=subprocess.DEVNULL, check=False, text=True).stdout.splitlines()
    shares = [(float(share), symbol) for share, symbol in re.findall(r"^ *([0-9.]+)% +(\S.*)$", "\n".join(lines), re.M)]
    served = sum(share for share, symbol in shares if SERVING.search(symbol))
    return served / 100 if served else None


def comparison(folder):
    """The seconds of `compare`, which serves eight orders, and how many times those of serving one order they are."""
    put(folder, "t", traces.hour)
    words = ["t", "--unit", "16"]
    plan = min(measured([PROGRAM, "plan", *words, "--agents", "1"], folder)[0] for _ in range(RUNS))
    classes = min(measured([PROGRAM, "classes", *words], folder)[0] for _ in range(RUNS))
    whole, memory, code = min(measured([PROGRAM, "compare", *words], folder) for _ in range(RUNS))
    if code != 0:
        print("compare: code %d" % code, flush=True)
        return
    line = "compare, the shape of the public trace, --unit 16  %8.2f s  %5d MiB  code %d  %.1f times plan" % (whole, memory, code, whole / plan)
    share = serving_share(["classes", *words], folder)
    if share:
        line += ", %.1f times the serving of one order, which is %.0f %% of classes (bound 9)" % (whole / (classes * share), 100 * share)
    print(line, flush=True)


# shapes of which the plan by a hall is timed
HALLS = ["fb-16", "fb"]


def halls(peer, folder):
    """Times `plan`, which a hall serves, by one agent and by four, in turn with `classes`, which serves the order of its classes without a hall, sends nothing, and prints its runs too."""
    for name in HALLS:
        make, options = SHAPES[name]
        put(folder, "t", make)
        plan = [PROGRAM, "plan", "t", *options, "--agents"]
        commands = {"one agent": [*plan, "1"], "four agents": [*plan, "4"], "classes": [PROGRAM, "classes", "t", *options]}
        if peer:
            commands["peer"] = [*peer, "plan", "t", *options]
        least = {}
        for _ in range(RUNS):
            for who, command in commands.items():
                found = measured(command, folder)
                least[who] = min(least.get(who, found), found)
        base = least["classes"][0]
        for who, (seconds, memory, code) in least.items():
            print("  %-6s %-12s %8.3f s  %5d MiB  code %d   %.2f times `classes`" % (name, who, seconds, memory, code, seconds / base), flush=True)


# what is said behind `online t --unit 16`, and how many times the peer's time it is to take at most
ONLINE = [([], 4), (["--epoch", "64"], 6)]


def online(peer, folder):
    """Times online runs of the trace of the shape of the public one, whose coflows arrive over an hour, and the check of the first, beside the peer's check of a plan of about its size. One agent
    sends."""
    put(folder, "t", lambda: traces.hour(spread_out=True))
    unit = ["--unit", "16"]
    for options, bound in ONLINE:
        ours, theirs = [], []
        for _ in range(RUNS):
            ours.append(measured([PROGRAM, "online", "t", *unit, *options, "--agents", "1"], folder))
            if peer:
                theirs.append(measured([*peer, "online", "t", *unit, *options], folder))
        beside(" ".join(["online", *unit, *options]), min(ours), min(theirs) if peer else None, bound)
    with open(os.path.join(folder, "o"), "wb") as file:
        subprocess.run([PROGRAM, "online", "t", *unit, "--agents", "1"], cwd=folder, stdout=file, check=False)
    planned(folder, unit)
    sizes = [os.path.getsize(os.path.join(folder, name)) // 1000 for name in ("o", "r")]
    print("the report of the online run has %d kB, that of the plan %d kB" % tuple(sizes), flush=True)
    ours = min(measured([PROGRAM, "check", "t", "o", *unit], folder) for _ in range(RUNS))
    theirs = min(measured([*peer, "check", "t", "r", *unit], folder) for _ in range(RUNS)) if peer else None
    beside("check of the online run, beside that of the plan", ours, theirs, 4)


def slow(peer, folder):
    """Runs each of the slow cases once, by one agent, beside the peer where it has the command."""
    for name, make, words in SLOW:
        put(folder, "t", make)
        agents = [] if words[0] == "compare" else ["--agents", "1"]
        ours = measured([PROGRAM, *words, *agents], folder)
        theirs = measured([*peer, *words], folder) if peer and agents else None
        print("  %-58s %8.1f s  %5d MiB  code %d" % (name, *ours) + ("   peer %6.1f s  %5d MiB" % theirs[:2] if theirs else ""), flush=True)


def beside(name, ours, theirs, bound):
    seconds, memory, code = ours
    line = "  %-50s %8.3f s  %5d MiB  code %d" % (name, seconds, memory, code)
    if theirs:
        line += "   peer %8.3f s  %5d MiB  code %d   ratio %.2f (bound %d)" % (*theirs, seconds / theirs[0], bound)
    print(line, flush=True)


def build(program):
    """Proves and builds a program where there is none or a source is newer, so that none of an earlier tree is timed."""
    if subprocess.run([os.path.join(TOP, "checks", "build"), os.path.basename(program)], check=False).returncode:
        sys.exit("bench: %s was not built" % os.path.basename(program))


def main():
    words = sys.argv[1:]
    peer = None
    if words[:1] == ["--peer"]:
        if len(words) < 2:
            sys.exit(__doc__)
        peer, words = shlex.split(words[1]), words[2:]
    alone = words[0] if words in (["picture"], ["compare"], ["online"], ["hall"], ["slow"]) else None
    if not alone and any(name not in SHAPES for name in words):
        sys.exit("bench: the shapes are %s" % " ".join(SHAPES))
    build(PROGRAM)
    with tempfile.TemporaryDirectory() as folder:
        if not alone:
            shapes(words or SHAPES, peer, folder)
        if not words:
            limits(folder)
        if alone == "compare" or not words:
            comparison(folder)
        if alone == "online" or not words:
            online(peer, folder)
        if alone == "slow":
            slow(peer, folder)
        if alone == "hall" or not words:
            halls(peer, folder)
        if alone == "picture" or not words:
            build(PICTURE)
            sys.exit(1 if windows(folder) else 0)


if __name__ == "__main__":
    main()
