#!/usr/bin/env python3
"""Runs the built program on files and compares standard output, standard error and the exit code.

Use: checks/program_runs.py            The last line is 'N passed, M failed'; the exit code is 0 where none failed.
"""
import os
import resource
import subprocess
import sys
import tempfile

sys.dont_write_bytecode = True
from order_rows import CLASSES, CLASS_ROWS, COMPARE, COMPARE_ROWS, COSTS, ORDER_ROWS, comparison
from program_rows import AUDIT, AUDIT_ROWS, CHECK, CHECK_ROWS, CROSSED, ONLINE_ROWS, ROWS, SERVE, SERVED_ROWS, TABLE_ROWS, TOO_MANY, TWO, WEIGHED_ROWS, WRITE_FAULT
import verdict_rows

TOP = os.path.dirname(os.path.dirname(os.path.abspath(__file__)))
PROGRAM = os.path.join(TOP, "crates", "sincronia", "out", "sincronia")


def build():
    """Proves and builds the program, where the tree has changed since."""
    subprocess.run([os.path.join(TOP, "sincronia")], stdout=subprocess.DEVNULL, stderr=subprocess.DEVNULL, check=False)
    return os.path.exists(PROGRAM)


def little_memory():
    """Leaves the program 64 MiB of addresses."""
    resource.setrlimit(resource.RLIMIT_AS, (2**26, 2**26))


def started(folder, files, words, stdout=None, before=None):
    """The exit code, standard output and standard error of the words over these files."""
    for name, content in files.items():
        if content is not None:
            with open(os.path.join(folder, name), "wb") as file:
                file.write(content)
    words = [word if isinstance(word, bytes) else word.encode() for word in words]
    done = subprocess.run([PROGRAM.encode(), *words], cwd=folder, timeout=120,
                          stdout=stdout or subprocess.PIPE, stderr=subprocess.PIPE, stdin=subprocess.DEVNULL, preexec_fn=before)
    return done.returncode, done.stdout or b"", done.stderr


def same(name, have, want):
    """Whether the run ended as it should."""
    if have == want:
        return True
    print("FAILED %s: want %r, have %r" % (name, want, have))
    return False


def run(row, stdout=None, before=None):
    name, trace, weights, words, *want = row
    with tempfile.TemporaryDirectory() as folder:
        return same(name, started(folder, {"t": trace, "w": weights}, words, stdout, before), tuple(want))


def run_by_agents(row):
    """A row that ends well has the same text by any number of agents."""
    name, trace, weights, words, *want = row
    return [run(("%s, by %s agents" % (name, agents), trace, weights, [*words, "--agents", agents], *want)) for agents in ("1", "64")]


def run_check(row, trace=TWO):
    name, report, words, *want = row
    with tempfile.TemporaryDirectory() as folder:
        return same(name, started(folder, {"t": trace, "r": report}, words), tuple(want))


def run_judged(row):
    """A row of a report, of a printed journal or of an order, with weights."""
    name, trace, weights, judged, words, *want = row
    with tempfile.TemporaryDirectory() as folder:
        return same(name, started(folder, {"t": trace, "w": weights, "r": judged}, words), tuple(want))


def bytes_of(short):
    """The bytes of a text in which a `/` stands for a line end."""
    return short.replace("/", "\n").encode()


def weights_of(trace, weights):
    """A file of these weights of a trace's coflows, in their order."""
    idents = [line.split()[0] for line in trace.split("/")[1:-1]]
    return "".join("%s %d\n" % pair for pair in zip(idents, weights)).encode()


def run_verdict(trace, weights, text, line):
    """A report and the line that `check` prints of it."""
    want = 0 if line.startswith("yes") else 1, line.encode() + b"\n", b""
    return run_judged(("a report " + text, bytes_of(trace), weights_of(trace, weights), bytes_of(text), CHECK + ["--weights", "w"], *want))


def run_verdicts():
    """The rows of reports and of online runs."""
    def parts(edits, right):
        return "".join(part if edit is None else edit for edit, part in zip(edits, right))

    made = [(verdict_rows.TWO, (1, 1), "sincronia 1/" + parts(edits, verdict_rows.RIGHT), line) for *edits, line in verdict_rows.EDITS]
    made += [(trace, weights, "sincronia " + text, line) for trace, weights, text, line in verdict_rows.OTHERS]
    made += [(verdict_rows.LATE, (1, 1), "sincronia online 2/epoch 9/bound 99/" + parts(edits, verdict_rows.RIGHT_ONLINE), line) for *edits, line in verdict_rows.ONLINE_EDITS]
    return [run_verdict(trace, weights, text + "end/", line) for trace, weights, text, line in made]


def run_certificate(trace, weights, lines):
    """The certificate of an online run and its total."""
    with tempfile.TemporaryDirectory() as folder:
        files = {"t": bytes_of(trace), "w": weights_of(trace, weights)}
        code, out, err = started(folder, files, ["online", "t", "--weights", "w"])
        have = b"".join(line + b"\n" for line in out.split(b"\n") if line.split(b" ")[0] in (b"release", b"total"))
        return same("the certificate of " + trace, (code, have, err), (0, bytes_of(lines), b""))


def run_costs(trace, weights, costs):
    """The rows of a comparison, whatever its bound."""
    with tempfile.TemporaryDirectory() as folder:
        code, out, err = started(folder, {"t": trace, "w": weights}, COMPARE + ["--weights", "w"])
        have, want = [[line for line in text.split(b"\n") if line.startswith(b"row ")] for text in (out, comparison(0, *costs))]
        return same("costs of %r" % trace, (code, have, err), (0, want, b""))


def run_long_report(name, words, trace, limit):
    """A report or a printed journal of 2^30 + 1 bytes, which takes no room on the disk."""
    with tempfile.TemporaryDirectory() as folder:
        with open(os.path.join(folder, "r"), "wb") as file:
            file.truncate(2**30 + 1)
        return same(name, started(folder, {"t": trace}, words), (7, b"", b"sincronia: limit: %s\n" % limit))


def run_shuffle():
    """The trace of the repository is planned, its report has a yes, and it has none after an edit by hand."""
    with open(os.path.join(TOP, "traces", "shuffle-24x40.txt"), "rb") as file:
        trace = file.read()
    with tempfile.TemporaryDirectory() as folder:
        code, report, err = started(folder, {"t": trace}, ["plan", "t"])
        alone = started(folder, {}, ["plan", "--agents", "1", "t"])
        lines = report.split(b"\n")
        totals = [line.split() for line in lines if line.split(b" ")[0] in (b"bound", b"slack", b"cost")]
        good = same("a shuffle is planned", (code, [total[0] for total in totals], lines[-2:], err), (0, [b"bound", b"slack", b"cost"], [b"end", b""], b""))
        if not good:
            return False
        bound, slack, cost = [int(total[1]) for total in totals]
        yes = b"yes bound %d slack %d cost %d\n" % (bound, slack, cost)
        no = b"no bound %d %d\n" % (bound + 1, bound)
        edited = report.replace(b"\nbound %d\n" % bound, b"\nbound %d\n" % (bound + 1))
        return all([same("a shuffle is planned by one agent", alone, (code, report, err)),
                    same("a shuffle is within four", cost <= 4 * bound + slack, True),
                    same("a shuffle is checked", started(folder, {"r": report}, CHECK), (0, yes, b"")),
                    same("a shuffle is edited", started(folder, {"r": edited}, CHECK), (1, no, b""))])


def run_served():
    """An online run whose ports cross has one text, whatever the agents, and that text has a yes."""
    with tempfile.TemporaryDirectory() as folder:
        code, out, err = started(folder, {"t": CROSSED}, ["online", "t"])
        good = same("an online run is served", (code, out.split(b"\n")[0], err), (0, b"sincronia online 2", b""))
        return good and all([*[same("an online run is served by %s agents" % agents, started(folder, {}, ["online", "t", "--agents", agents]), (0, out, b"")) for agents in ("1", "2", "64")],
                             same("an online run is checked", started(folder, {"r": out}, CHECK), (0, b"yes total 3 cost 4\n", b""))])


def run_made():
    """A seed gives one summary, whatever the agents."""
    with tempfile.TemporaryDirectory() as folder:
        code, out, err = started(folder, {}, ["make", "7"])
        lines = out.split(b"\n")
        good = same("a seed is made", (code, lines[0], lines[-3:], err), (0, b"sincronia make 7", [b"check yes", b"end", b""], b""))
        greatest = started(folder, {}, ["make", "18446744073709551615", "--unit=64"])[1].split(b"\n")[0]
        return good and all([*[same("a seed is made again by %s agents" % agents, started(folder, {}, ["make", "--agents", agents, "007"]), (0, out, b"")) for agents in ("1", "64")],
                             same("a seed is made whatever the weights", started(folder, {}, ["make", "--weights=none", "7"]), (0, out, b"")),
                             same("the greatest seed is made", greatest, b"sincronia make 18446744073709551615")])


def main():
    if not build():
        print("the program could not be built")
        print("0 passed, 1 failed")
        return 1
    results = [run(row) for row in ROWS + COMPARE_ROWS + CLASS_ROWS] + [run_check(row) for row in CHECK_ROWS]
    results += [good for row in ROWS if row[4] == 0 and not any("agents" in word for word in row[3]) for good in run_by_agents(row)]
    results += [run_check((name, *rest), trace) for name, trace, *rest in TABLE_ROWS + ONLINE_ROWS]
    results += [run_judged(row) for row in WEIGHED_ROWS + AUDIT_ROWS + ORDER_ROWS]
    results += [run_long_report("a long report", CHECK, TWO, b"text 1073741825"), run_long_report("a long journal", AUDIT, TWO, b"text 1073741825"),
                run_long_report("a long report of too many units", CHECK, TOO_MANY, b"units 1099511627777")]
    results += [run(row) for row in SERVED_ROWS] + run_verdicts() + [run_certificate(*row) for row in verdict_rows.CERTIFICATES]
    results += [run_costs(*row) for row in COSTS]
    results += [run_shuffle(), run_made(), run_served()]
    with open("/dev/full", "wb") as full:
        results += [run(("a full device for " + words[0], TWO, b"1\n2\n", words, 9, b"", WRITE_FAULT), full) for words in (["plan", "t"], COMPARE, CLASSES, SERVE, ["serve", "t", "w"])]
    results += [run(("no memory for the text of " + words[0], b"\n" * 2**26, None, words, 11, b"", b"sincronia: no memory\n"), before=little_memory)
                for words in (["plan", "t"], COMPARE, CLASSES, SERVE, ["serve", "t", "w"])]
    print("%d passed, %d failed" % (results.count(True), results.count(False)))
    return 0 if all(results) else 1


if __name__ == "__main__":
    sys.exit(main())
