#!/usr/bin/env python3
"""Refuses each allocation of runs of the built program in turn: that one alone, and that one with all later ones.

Use: checks/refused_memory.py            The last line is 'N passed, M failed'; the exit code is 0 where none failed.

Each run in which an allocation was refused must end with code 11 and its line and write nothing to standard output, or end with code 0 and write the whole text:
then the library got over the refusal. The run in which no allocation was refused ends a series. A library that is loaded before the program's own
counts and refuses calls of `malloc` and `realloc`, whichever thread makes them; it is made by the C compiler `cc`.
"""
import os
import subprocess
import sys
import tempfile
from concurrent.futures import ThreadPoolExecutor

sys.dont_write_bytecode = True
from program_rows import JOURNAL, LATE, ONLINE, TWO, TWO_TEXT
from program_runs import PROGRAM, TOP, build

REFUSING = r"""
#include <stddef.h>
#include <stdlib.h>
#include <unistd.h>
void *__libc_malloc(size_t size);
void *__libc_realloc(void *old, size_t size);
static long calls, first, last, teller;
__attribute__((constructor)) static void start(void) {
    const char *text = getenv("REFUSE_FIRST");
    first = text ? atol(text) : 0;
    text = getenv("REFUSE_LAST");
    last = text ? atol(text) : 0;
    text = getenv("REFUSE_TELL");
    teller = text ? atol(text) : 9;
    calls = 0;
}
static int refused(void) {
    long call = __atomic_add_fetch(&calls, 1, __ATOMIC_RELAXED);
    if (first == 0 || call < first || call > last) return 0;
    if (write((int)teller, "x", 1) != 1) _exit(99);
    return 1;
}
void *malloc(size_t size) { return refused() ? NULL : __libc_malloc(size); }
void *realloc(void *old, size_t size) { return refused() ? NULL : __libc_realloc(old, size); }
"""

NO_MEMORY = (11, b"", b"sincronia: no memory\n")

# A client registers both coflows, publishes an order, and asks for a rank.
SCRIPT = b"1 register 1\n1 register 2\n1 publish\n1 pull 2\nwait\n"

# name and words
SERIES = [
    ("plan", ["plan", "t", "--weights", "w"]),
    ("plan by one agent", ["plan", "t", "--agents", "1"]),
    ("check", ["check", "t", "r"]),
    ("check of an online run", ["check", "l", "o"]),
    ("make", ["make", "7", "--unit", "64"]),
    ("compare", ["compare", "t", "--weights", "w"]),
    ("classes", ["classes", "t", "--weights", "w"]),
    ("audit", ["audit", "t", "j"]),
    ("serve", ["serve", "t", "g", "--weights", "w"]),
    ("online", ["online", "l", "--epoch", "4"]),
    ("online by one agent", ["online", "l", "--agents", "1"]),
    ("live", ["live", "t", "s", "--run", "4"]),
]
# the same of the program that tells numbers
STATS = os.path.join(TOP, "crates", "sincronia_stats", "out", "sincronia_stats")
STATS_NO_MEMORY = (11, b"", b"sincronia_stats: no memory\n")
STATS_SERIES = [
    ("numbers of a plan", ["t", "r", "--slot-ms", "8"]),
    ("numbers of an online run", ["l", "o"]),
    ("rows of a plan", ["t", "r", "--csv"]),
]
# how many runs are started before their answers are looked at
BATCH = 64


def make_library(folder):
    """Makes the library that refuses allocations."""
    with open(os.path.join(folder, "refusing.c"), "wb") as file:
        file.write(REFUSING.encode())
    subprocess.run(["cc", "-O1", "-fno-builtin", "-shared", "-fPIC", "-o", "refusing.so", "refusing.c"], cwd=folder, check=True)


def refusing(folder, program, words, first, last):
    """The code, standard output and standard error of a program, and how many allocations were refused."""
    reader, writer = os.pipe()
    environment = dict(os.environ, LD_PRELOAD=os.path.join(folder, "refusing.so"), REFUSE_FIRST=str(first), REFUSE_LAST=str(last), REFUSE_TELL=str(writer))
    done = subprocess.Popen([program, *words], cwd=folder, env=environment, stdin=subprocess.DEVNULL, stdout=subprocess.PIPE, stderr=subprocess.PIPE, pass_fds=(writer,))
    os.close(writer)
    out, err = done.communicate(timeout=120)
    with os.fdopen(reader, "rb") as pipe:
        refused = len(pipe.read())
    return (done.returncode, out, err), refused


def refusals(folder, program, words, last_of):
    """For each allocation in turn, its number and what the run in which it was refused ended with."""
    first = 1
    with ThreadPoolExecutor(os.cpu_count()) as pool:
        while True:
            numbers = range(first, first + BATCH)
            runs = pool.map(lambda number: refusing(folder, program, words, number, last_of(number)), numbers)
            for number, (have, refused) in zip(numbers, runs):
                if refused == 0:
                    return
                yield number, have
            first += BATCH


def series(folder, program, name, words, last_of):
    """How many runs ended as they should, and how many did not."""
    whole, _ = refusing(folder, program, words, 0, 0)
    passed, failed, over = 0, 0, []
    no_memory = NO_MEMORY if program == PROGRAM else STATS_NO_MEMORY
    for number, have in refusals(folder, program, words, last_of):
        if have == whole:
            over.append(number)
        if have == no_memory or (have == whole and whole[0] == 0):
            passed += 1
        else:
            failed += 1
            print("FAILED %s, allocation %d: %r" % (name, number, have))
    print("%s: %d runs, got over %s" % (name, passed + failed, over or "none"), flush=True)
    return passed, failed


def main():
    if not build():
        print("the program could not be built")
        print("0 passed, 1 failed")
        return 1
    passed, failed = 0, 0
    with tempfile.TemporaryDirectory() as folder:
        for name, content in (("t", TWO), ("w", b"1 1\n"), ("r", TWO_TEXT), ("l", LATE), ("o", ONLINE), ("j", JOURNAL), ("s", SCRIPT), ("g", b"1\n2\n")):
            with open(os.path.join(folder, name), "wb") as file:
                file.write(content)
        make_library(folder)
        for program, name, words in [(PROGRAM, *row) for row in SERIES] + [(STATS, *row) for row in STATS_SERIES]:
            for kind, last_of in (("alone", lambda number: number), ("and later ones", lambda number: 10**9)):
                good, bad = series(folder, program, name + " " + kind, words, last_of)
                passed += good
                failed += bad
    print("%d passed, %d failed" % (passed, failed))
    return 1 if failed or passed < 100 else 0


if __name__ == "__main__":
    sys.exit(main())
