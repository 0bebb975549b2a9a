#!/usr/bin/env python3
"""Refuses each thread of runs of the built program in turn: that one alone, and that one with all later ones.

Use: checks/refused_threads.py            The last line is 'N passed, M failed'; the exit code is 0 where none failed.

Each run must end with the code and the bytes of the run in which no thread was refused. A library that is loaded before the program's own counts and refuses calls of `pthread_create`; it is made by
the C compiler `cc`. A run that waits for a thread that never starts is ended after a while, and has failed.
"""
import os
import subprocess
import sys
import tempfile

sys.dont_write_bytecode = True
from program_runs import PROGRAM, TOP, build

REFUSING = r"""
#define _GNU_SOURCE
#include <dlfcn.h>
#include <errno.h>
#include <pthread.h>
#include <stdlib.h>
#include <unistd.h>
typedef int create(pthread_t *, const pthread_attr_t *, void *(*)(void *), void *);
static create *made;
static long calls, first, last;
static int teller;
__attribute__((constructor)) static void start(void) {
    made = (create *)dlsym(RTLD_NEXT, "pthread_create");
    first = atol(getenv("REFUSE_FIRST"));
    last = atol(getenv("REFUSE_LAST"));
    teller = atoi(getenv("REFUSE_TELL"));
}
int pthread_create(pthread_t *thread, const pthread_attr_t *attributes, void *(*run)(void *), void *given) {
    long call = __atomic_add_fetch(&calls, 1, __ATOMIC_RELAXED);
    int refused = call >= first && call <= last;
    if (write(teller, refused ? "x" : "-", 1) != 1) _exit(99);
    return refused ? EAGAIN : made(thread, attributes, run, given);
}
"""

# Two clients ask by turns, each in a round of its own, and runs stand between.
SCRIPT = "".join("%d register %d\nwait\n" % (1 + number % 2, number) for number in range(1, 41)) + "1 publish\nwait\nslot\n2 pull 1\nwait\nslot\n"
# name, words, and how many threads at least are started
SERIES = [
    ("plan", ["plan", "t"], 3),
    ("plan by 16 agents", ["plan", "t", "--agents", "16"], 15),
    ("online", ["online", "t"], 3),
    ("live", ["live", "t", "s", "--run", "4"], 3),
    ("make", ["make", "7", "--unit", "64"], 1),
]
ALL = 10**9


def refusing(folder, words, first, last):
    """The code, standard output and standard error of the program, how many threads it asked for, and how many were refused."""
    reader, writer = os.pipe()
    environment = dict(os.environ, LD_PRELOAD=os.path.join(folder, "refusing.so"), REFUSE_FIRST=str(first), REFUSE_LAST=str(last), REFUSE_TELL=str(writer))
    run = subprocess.Popen([PROGRAM, *words], cwd=folder, env=environment, stdin=subprocess.DEVNULL, stdout=subprocess.PIPE, stderr=subprocess.PIPE, pass_fds=(writer,))
    os.close(writer)
    try:
        out, err = run.communicate(timeout=120)
    except subprocess.TimeoutExpired:
        run.kill()
        out, err = run.communicate()
    with os.fdopen(reader, "rb") as pipe:
        asked = pipe.read()
    return (run.returncode, out, err), len(asked), asked.count(b"x")


def series(folder, name, words, least):
    """How many runs ended as they should, and how many did not."""
    whole, asked, _ = refusing(folder, words, 0, 0)
    passed, failed = (1, 0) if whole[0] == 0 and asked >= least else (0, 1)
    if failed:
        print("FAILED %s: code %d, %d threads asked for" % (name, whole[0], asked))
    for number in range(1, asked + 1):
        for last in (number, ALL):
            have, _, refused = refusing(folder, words, number, last)
            if have == whole and refused > 0:
                passed += 1
            else:
                failed += 1
                print("FAILED %s, threads %d to %d: code %r, %d refused, %d bytes for %d" % (name, number, last, have[0], refused, len(have[1]), len(whole[1])))
    print("%s: %d threads, %d runs" % (name, asked, passed + failed), flush=True)
    return passed, failed


def main():
    if not build():
        print("the program could not be built")
        print("0 passed, 1 failed")
        return 1
    passed, failed = 0, 0
    with tempfile.TemporaryDirectory() as folder:
        with open(os.path.join(TOP, "traces", "shuffle-24x40.txt"), "rb") as trace, open(os.path.join(folder, "t"), "wb") as file:
            file.write(trace.read())
        for name, content in (("s", SCRIPT), ("refusing.c", REFUSING)):
            with open(os.path.join(folder, name), "w") as file:
                file.write(content)
        subprocess.run(["cc", "-O1", "-shared", "-fPIC", "-o", "refusing.so", "refusing.c", "-ldl"], cwd=folder, check=True)
        for name, words, least in SERIES:
            good, bad = series(folder, name, words, least)
            passed += good
            failed += bad
    print("%d passed, %d failed" % (passed, failed))
    return 1 if failed or passed < 50 else 0


if __name__ == "__main__":
    sys.exit(main())
