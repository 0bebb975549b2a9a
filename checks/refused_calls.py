#!/usr/bin/env python3
"""Lets each call for a file, and each byte of the output, fail in turn, and looks at what the built program answers.

Use: checks/refused_calls.py           The last line is 'N passed, M failed'; the exit code is 0 where none failed.

A library that is loaded before the program's own hands a byte at a time to each read of a file, and lets one call fail, an opening or a read: the program then ends with code 8 and writes nothing. Or it takes so many
bytes of the output and fails behind them: the program then ends with code 9, and its output is a beginning of the text.
"""
import os
import random
import subprocess
import sys
import tempfile

sys.dont_write_bytecode = True
import plain_plan
from program_rows import READ_FAULT, TWO, TWO_TEXT, WRITE_FAULT
from program_runs import PROGRAM, build

REFUSING = r"""
#define _GNU_SOURCE
#include <errno.h>
#include <fcntl.h>
#include <stdarg.h>
#include <stdlib.h>
#include <sys/syscall.h>
#include <sys/uio.h>
#include <unistd.h>
static long calls, refused, taken, most = -1;
static char named[1024];
static long number(const char *name, long none) { const char *text = getenv(name); return text ? atol(text) : none; }
__attribute__((constructor)) static void start(void) { refused = number("REFUSE_CALL", 0); most = number("TAKE_BYTES", -1); calls = taken = 0; }
static int is_refused(void) { if (++calls != refused) return 0; errno = EIO; return 1; }
static int opened(int folder, const char *name, int flags, int mode) {
    int file, own = name[0] && !name[1];
    if (own && is_refused()) return -1;
    file = syscall(SYS_openat, folder, name, flags, mode);
    if (file >= 0 && file < 1024) named[file] = own;
    return file;
}
#define MODE va_list rest; va_start(rest, flags); int mode = flags & O_CREAT ? va_arg(rest, int) : 0; va_end(rest)
int open(const char *name, int flags, ...) { MODE; return opened(AT_FDCWD, name, flags, mode); }
int open64(const char *name, int flags, ...) { MODE; return opened(AT_FDCWD, name, flags, mode); }
int openat(int folder, const char *name, int flags, ...) { MODE; return opened(folder, name, flags, mode); }
ssize_t read(int file, void *to, size_t size) {
    if (file >= 0 && file < 1024 && named[file]) {
        if (is_refused()) return -1;
        if (size > 1) size = 1;
    }
    return syscall(SYS_read, file, to, size);
}
ssize_t write(int file, const void *from, size_t size) {
    if (file == 1 && most >= 0) {
        if (taken == most) { errno = ENOSPC; return -1; }
        if (taken + (long)size > most) size = most - taken;
        taken += size;
    }
    return syscall(SYS_write, file, from, size);
}
ssize_t writev(int file, const struct iovec *parts, int count) {
    for (int k = 0; k < count; k++) if (parts[k].iov_len) return write(file, parts[k].iov_base, parts[k].iov_len);
    return 0;
}
"""

REPORT = TWO_TEXT
# name, files, words, what is written, and how many calls are made for the files: one that opens each, one for each of its bytes, and one that finds its end
SERIES = [
    ("plan", {"t": TWO}, ["plan", "t"], TWO_TEXT, len(TWO) + 2),
    ("plan with weights", {"t": TWO, "w": b"1 1\n"}, ["plan", "t", "--weights", "w"], TWO_TEXT, len(TWO) + 2 + 4 + 2),
    ("check", {"t": TWO, "r": REPORT}, ["check", "t", "r"], b"yes bound 5 slack 1 cost 5\n", len(TWO) + 2 + len(REPORT) + 2),
]


def make_library(folder):
    """Makes the library that refuses calls."""
    with open(os.path.join(folder, "refusing.c"), "wb") as file:
        file.write(REFUSING.encode())
    subprocess.run(["cc", "-O1", "-shared", "-fPIC", "-o", "refusing.so", "refusing.c"], cwd=folder, check=True)


def run(folder, words, **settings):
    """The code, standard output and standard error of the words, where calls are refused by these settings."""
    environment = dict(os.environ, LD_PRELOAD=os.path.join(folder, "refusing.so"), **{name: str(value) for name, value in settings.items()})
    done = subprocess.run([PROGRAM, *words], cwd=folder, env=environment, stdin=subprocess.DEVNULL, stdout=subprocess.PIPE, stderr=subprocess.PIPE, timeout=120)
    return done.returncode, done.stdout, done.stderr


def same(name, have, want):
    """Whether the run ended as it should."""
    if have == want:
        return True
    print("FAILED %s: want %r, have %r" % (name, want, have))
    return False


def files_fail(folder, name, files, words, text, calls):
    """Each call for the files fails in turn, and none behind the last."""
    for file, content in files.items():
        with open(os.path.join(folder, file), "wb") as it:
            it.write(content)
    for call in range(1, calls + 1):
        yield same("%s, call %d" % (name, call), run(folder, words, REFUSE_CALL=call), (8, b"", READ_FAULT))
    yield same("%s, behind its last call" % name, run(folder, words, REFUSE_CALL=calls + 1), (0, text, b""))


def output_fails(folder, words, text):
    """The output fails behind each number of bytes, but for the whole text."""
    for most in range(len(text)):
        yield same("%s, %d bytes" % (words[0], most), run(folder, words, TAKE_BYTES=most), (9, text[:most], WRITE_FAULT))
    yield same("%s, all bytes" % words[0], run(folder, words, TAKE_BYTES=len(text)), (0, text, b""))


def long_plan():
    """A trace and its plan, by a plain program: a text of several pieces."""
    r = random.Random(7)
    coflows = [plain_plan.Coflow(ident, range(24), [(port, 24 * 10**6 * r.randint(1, 40)) for port in range(24)], 1) for ident in (1, 2, 3, 4)]
    return plain_plan.trace_text(24, coflows).encode(), plain_plan.plan_of(24, coflows, 1).text.encode()


def long_output_fails(folder):
    """The output of a long text fails in each tenth of it, at its first byte and before its last one."""
    trace, text = long_plan()
    with open(os.path.join(folder, "long"), "wb") as file:
        file.write(trace)
    for most in [0, *(len(text) * (2 * tenth + 1) // 20 for tenth in range(10)), len(text) - 1]:
        yield same("a long plan, %d bytes" % most, run(folder, ["plan", "long"], TAKE_BYTES=most), (9, text[:most], WRITE_FAULT))
    yield same("a long plan, all bytes", run(folder, ["plan", "long"], TAKE_BYTES=len(text)), (0, text, b""))


def main():
    if not build():
        print("the program could not be built")
        print("0 passed, 1 failed")
        return 1
    results = []
    with tempfile.TemporaryDirectory() as folder:
        make_library(folder)
        for row in SERIES:
            results += files_fail(folder, *row)
        results += output_fails(folder, ["plan", "t"], TWO_TEXT)
        results += output_fails(folder, ["check", "t", "r"], b"yes bound 5 slack 1 cost 5\n")
        results += long_output_fails(folder)
    print("%d passed, %d failed" % (results.count(True), results.count(False)))
    return 0 if all(results) else 1


if __name__ == "__main__":
    sys.exit(main())
