#!/usr/bin/env python3
"""Runs the built program on files that are made to be hard on it, and compares standard output, standard error, the exit code and the peak of memory.

Use: checks/hostile_files.py [--long]            The last line is 'N passed, M failed'; the exit code is 0 where none failed.

Each row has the answer as it follows from the formats, worked out by hand, and the greatest peak of memory that it may take, in MiB. With --long also a report of 2^30 bytes is read,
for which the program is left 4 GiB of addresses.
"""
import os
import subprocess
import sys
import tempfile
from concurrent.futures import ThreadPoolExecutor

sys.dont_write_bytecode = True
from program_rows import AUDIT, CHECK, JOURNAL, LATE, ONLINE, READ_FAULT, TWO, TWO_TEXT, WEIGHTED
from program_runs import PROGRAM, build

PLAN = ["plan", "t"]
DIGITS = b"1" * 2**26
BOUND_OF_EQUALS = 2**35 + 2**23
LIVE = ["live", "t", "r"]
PULLS = b"1 register 1\n" + b"1 pull 2\n" * 65535


def many_mappers():
    """4096 coflows, each with 4096 mappers at location 0 and a reducer of 4096 megabytes at location 1."""
    rest = b" 0 4096" + b" 0" * 4096 + b" 1 1:4096\n"
    return b"1 4096\n" + b"".join(b"%d%s" % (number, rest) for number in range(4096))


def many_mappers_text():
    """Its plan. Each coflow has one flow, of 4096 units at port 0, and weight 1, so the coflow with the greatest number takes the last place, pays 2^40 / 4096 for a unit, and nothing is
    left to the others. It ends in slot 4096 * 4096, and the others one after another before it. Of 4096 coflows of 4096 units each the squares come to 2^48 and 2^36."""
    places = b"".join(b"place %d %d in 0 %d %d 1\n" % (k, k - 1, 2**28 if k == 4096 else 0, 4096 * k) for k in range(1, 4097))
    cost = 4096 * sum(range(1, 4097))
    runs = b"".join(b"run 4096 %d\n" % flow for flow in range(4096))
    return b"sincronia 2\n%sbound %d\nslack 0\ncost %d\n%send\n" % (places, BOUND_OF_EQUALS, cost, runs)


def many_flows():
    """A coflow with a flow between each two of 1024 locations, which are 2^20, and a second one with a flow more."""
    from_all = b"".join(b" %d" % location for location in range(1024))
    to_all = b"".join(b" %d:1024" % location for location in range(1024))
    return b"1024 2\n1 0 1024%s 1024%s\n2 0 1 0 1 1024:1\n" % (from_all, to_all)


def script_text(script):
    """The text of a script of one client over the two coflows, who registers the first one and pulls the other one's rank. Nothing is published, so version 0 has no rank for it."""
    pulls = b"".join(b"pull 1 %d 2 0 0\n" % line for line in range(2, script.count(b"\n") + 1))
    runs = b"".join(b"entry %d 0 open 1 opened %d 1 1\nentry %d 0 close closed %d\n" % (2 * slot, slot, 2 * slot + 1, slot) for slot in (1, 2, 3))
    return b"sincronia live 1\nentry 1 1 register 1 joined\n%sentry 8 0 open 1 nothing\n%srun 3 0\nend\n" % (runs, pulls)


def bad(line):
    return b"sincronia: " + line + b"\n"


# name, bytes of the files `t`, `w` and `r`, which is a report or a script (None: there is no such file), words, code, standard output, standard error, MiB
def rows():
    head, rest = TWO.split(b"\n", 1)
    zeros = b"0" * 10**6
    return [
        ("2^26 digits as a trace", DIGITS, None, None, PLAN, 3, b"", bad(b"trace: bad header"), 80),
        ("2^26 digits as weights", TWO, DIGITS, None, WEIGHTED, 4, b"", bad(b"weights: line 1 unknown id 18446744073709551615"), 80),
        ("2^26 digits as a report", TWO, None, DIGITS, CHECK, 5, b"", bad(b"report: line 1"), 80),
        ("2^26 + 1 digits", DIGITS + b"1", None, None, PLAN, 7, b"", bad(b"limit: text 67108865"), 80),
        ("an id of 10^7 digits", b"1 1\n" + b"9" * 10**7 + b" 0 1 0 1 1:1\n", None, None, PLAN, 7, b"", bad(b"limit: id 18446744073709551615"), 16),
        ("a location of 10^7 digits", b"1 1\n7 0 1 " + b"9" * 10**7 + b" 1 1:1\n", None, None, PLAN, 3, b"", bad(b"trace: line 2 port 18446744073709551615 out of range"), 16),
        ("10^7 digits behind a point", b"1 1\n7 0 1 0 1 1:0." + b"0" * 10**7 + b"1\n", None, None, PLAN, 0,
         b"sincronia 2\nplace 1 7 in 0 1099511627776 1 1\nbound 1\nslack 0\ncost 1\nrun 1 0\nend\n", b"", 16),
        ("a weight of 10^7 digits", TWO, b"1 " + b"9" * 10**7 + b"\n", None, WEIGHTED, 7, b"", bad(b"limit: weight 18446744073709551615"), 16),
        ("10^6 zeros before each number", b"\n".join(b" ".join(zeros + field for field in line.split(b" ")) for line in (head, rest.split(b"\n")[0]))
         .replace(b":", b":" + zeros) + b"\n2 0 1 0 1 1:1\n", None, None, PLAN, 0, TWO_TEXT, b"", 16),
        ("10^6 zeros before a number of a report", TWO, None, TWO_TEXT.replace(b"bound 5", b"bound " + zeros + b"5"), CHECK, 5, b"", bad(b"report: line 4"), 8),
        ("4096 coflows of 4096 mappers", many_mappers(), None, None, PLAN, 0, many_mappers_text(), b"", 120),
        ("2^20 flows and one more", many_flows(), None, None, PLAN, 7, b"", bad(b"limit: flows 1048577"), 40),
        ("a script of 65536 commands", TWO, None, PULLS, LIVE, 0, script_text(PULLS), b"", 16),
        ("a script of 65537 commands", TWO, None, PULLS + b"1 pull 2\n", LIVE, 7, b"", bad(b"limit: commands 65537"), 16),
        ("2^26 digits as a script", TWO, None, DIGITS, LIVE, 7, b"", bad(b"limit: clients 18446744073709551615"), 80),
        ("zero bytes as a script", TWO, None, b"\0" * 2**20, LIVE, 6, b"", bad(b"script: line 1 field 1"), 8),
        ("bytes of 255 behind a client", TWO, None, b"1 " + b"\xff" * 2**20, LIVE, 6, b"", bad(b"script: line 1 field 2"), 8),
        ("zero bytes as a trace", b"\0" * 2**20, None, None, PLAN, 3, b"", bad(b"trace: bad header"), 8),
        ("bytes of 255 as a trace", b"\xff" * 2**20, None, None, PLAN, 3, b"", bad(b"trace: bad header"), 8),
        ("zero bytes behind a header", b"1 1\n" + b"\0" * 2**20, None, None, PLAN, 3, b"", bad(b"trace: line 2 field 1"), 8),
        ("bytes of 255 behind a header", b"1 1\n" + b"\xff" * 2**20, None, None, PLAN, 3, b"", bad(b"trace: line 2 field 1"), 8),
        ("bytes of 0 and 255 behind fields", b"1 1\n7 0 1 0 1 1:1 " + b"\0\xff" * 2**19, None, None, PLAN, 3, b"", bad(b"trace: line 2 field 7"), 8),
        ("zero bytes as weights", TWO, b"\0" * 2**20, None, WEIGHTED, 4, b"", bad(b"weights: line 1 field 1"), 8),
        ("bytes of 255 behind an id", TWO, b"1 " + b"\xff" * 2**20, None, WEIGHTED, 4, b"", bad(b"weights: line 1 field 2"), 8),
        ("zero bytes as a report", TWO, None, b"\0" * 2**20, CHECK, 5, b"", bad(b"report: line 1"), 8),
        ("bytes of 255 in a report", TWO, None, TWO_TEXT.replace(b"run 3 0", b"run 3 \xff"), CHECK, 5, b"", bad(b"report: line 8"), 8),
        ("a folder as report", TWO, None, None, ["check", "t", "."], 8, b"", READ_FAULT, 8),
    ]


# A script, each line of which has other words.
SCRIPT = b"1 register 1\n2 withdraw 2\nslot\n1 reweigh 1 2\n2 pull 1\n1 publish\nwait\n"


def at_each_byte(text):
    """The text with a byte of 0 or 255 in place of one byte, for each byte, blanks and line feeds among them; with the numbers of the line and of the field in which it stands then."""
    for at in range(len(text)):
        before = text[:at]
        line = before.count(b"\n") + 1
        # a byte in place of a blank joins the fields beside it
        field = len((before[before.rfind(b"\n") + 1:] + b"x").split())
        for byte in (b"\0", b"\xff"):
            yield before + byte + text[at + 1:], line, field


def byte_rows():
    """Rows with a byte of 0 or of 255 at each place of each kind of file. A strict text is bad at the line of the byte; the others tell its field too."""
    def row(name, place, line, field, files, words, code, told):
        return "%s, byte %d" % (name, place), *files, words, code, b"", bad(told), 8

    for place, (text, line, field) in enumerate(at_each_byte(TWO)):
        yield row("a trace", place // 2, line, field, (text, None, None), PLAN, 3, b"trace: bad header" if line == 1 else b"trace: line %d field %d" % (line, field))
    for place, (text, line, field) in enumerate(at_each_byte(b"1 5\n2 1\n")):
        yield row("weights", place // 2, line, field, (TWO, text, None), WEIGHTED, 4, b"weights: line %d field %d" % (line, field))
    for place, (text, line, field) in enumerate(at_each_byte(SCRIPT)):
        yield row("a script", place // 2, line, field, (TWO, None, text), LIVE, 6, b"script: line %d field %d" % (line, field))
    for name, trace, whole, words in (("a report", TWO, TWO_TEXT, CHECK), ("an online report", LATE, ONLINE, CHECK), ("a printed journal", TWO, JOURNAL, AUDIT)):
        for place, (text, line, field) in enumerate(at_each_byte(whole)):
            yield row(name, place // 2, line, field, (trace, None, text), words, 5, b"report: line %d" % line)


# Runs the words in a folder, with standard output and standard error in the files `out` and `err` there and so many bytes of addresses (0: no limit), and prints the exit code and the peak of
# memory in KiB. The peak of a process counts what it had before the program was started in it, which is a copy of its parent: so a small process starts the program.
STARTER = """
import os, resource, sys
folder, most, *words = sys.argv[1:]
os.chdir(folder)
child = os.fork()
if child == 0:
    for name, number in (("out", 1), ("err", 2)):
        os.dup2(os.open(name, os.O_WRONLY | os.O_CREAT | os.O_TRUNC), number)
    if int(most):
        resource.setrlimit(resource.RLIMIT_AS, (int(most), int(most)))
    os.execv(words[0], words)
_, status, usage = os.wait4(child, 0)
print(os.waitstatus_to_exitcode(status), usage.ru_maxrss)
"""


def measured(folder, files, words, most=0):
    """The exit code, standard output, standard error and the peak of memory in MiB of the words over these files, in so many bytes of addresses, where that is not 0."""
    for name, content in files.items():
        if content is not None:
            with open(os.path.join(folder, name), "wb") as file:
                file.write(content)
    started = [sys.executable, "-S", "-E", "-c", STARTER, folder, str(most), os.path.abspath(PROGRAM), *words]
    code, peak = map(int, subprocess.run(started, stdout=subprocess.PIPE, check=True).stdout.split())
    with open(os.path.join(folder, "out"), "rb") as out, open(os.path.join(folder, "err"), "rb") as err:
        return code, out.read(), err.read(), peak / 1024


def run(row):
    name, trace, weights, report, words, code, out, err, most = row
    with tempfile.TemporaryDirectory() as folder:
        *have, peak = measured(folder, {"t": trace, "w": weights, "r": report}, words)
    good = have == [code, out, err] and peak <= most
    if good:
        print("%s: %d MiB, of at most %d" % (name, peak, most), flush=True)
    else:
        print("FAILED %s: %r, %d MiB, of at most %d" % (name, [part[:80] if isinstance(part, bytes) else part for part in have], peak, most), flush=True)
    return good


def run_long_report():
    """A report of 2^30 bytes of runs, by turns of the first and of the second flow, which is read in less than 4 GiB: the second flow has more slots than units, and so has the first, which is told."""
    head = TWO_TEXT[:TWO_TEXT.index(b"run ")]
    pair, end = b"run 1 1\nrun 1 0\n", b"end\n"
    with tempfile.TemporaryDirectory() as folder:
        with open(os.path.join(folder, "r"), "wb") as file:
            file.write(head)
            pairs = (2**30 - len(head) - len(end)) // len(pair)
            for _ in range(pairs // 2**16):
                file.write(pair * 2**16)
            file.write(pair * (pairs % 2**16) + end)
        *have, peak = measured(folder, {"t": TWO}, CHECK, 2**32)
    most = 3700
    good = have == [1, b"no units 0 %d 3\n" % pairs, b""] and peak <= most
    print("%sa report of 2^30 bytes of runs: %r, %d MiB, of at most %d" % ("" if good else "FAILED ", have, peak, most))
    return good


def main():
    if not build():
        print("the program could not be built")
        print("0 passed, 1 failed")
        return 1
    results = [run(row) for row in rows()]
    with ThreadPoolExecutor(4) as pool:
        results += pool.map(run, byte_rows())
    if "--long" in sys.argv[1:]:
        results.append(run_long_report())
    print("%d passed, %d failed" % (results.count(True), results.count(False)))
    return 0 if all(results) else 1


if __name__ == "__main__":
    sys.exit(main())
