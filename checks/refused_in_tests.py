#!/usr/bin/env python3
"""Refuses each allocation of each test of the crates in turn. It wants the tests as `rt ci` or `rt test` built them. The gate runs it on `plan_tests:benches`.

Use: checks/refused_in_tests.py [CRATE[:MODULE] ...]        The last line is 'N passed, M failed'; the exit code is 0 where none failed.

Each run in which an allocation was refused must end well, since the library or the test got over the refusal, or tell that there was no memory: an answer that another
fault tells, or that a test finds wrong, is a failure; where a test makes a table, any error of the making passes. The first 200 allocations of a test are refused one by one, and later ones in growing steps.
With a module its tests alone are run. Tests of halls that close have to get over a refusal at least once: such a close is tried again.
"""
import os
import subprocess
import sys
import tempfile

sys.dont_write_bytecode = True
from refused_memory import TOP, make_library, refusing

# modules of tests in which a refusal is got over
GET_OVER = {"hall_tests:closes"}

# what a test prints that had no memory; those that make a table stop with `no table` on any error
NO_MEMORY = (b"NoMemory", b"AllocError", b"AllocFailed", b"no memory", b"OutOfMemory", b"no table")


def tests_of(program):
    """The tests by their modules."""
    listed = subprocess.run([program, "--list"], stdout=subprocess.PIPE, stderr=subprocess.PIPE, check=False).stdout.decode()
    found = {}
    for line in listed.splitlines():
        if line.endswith(": test"):
            name = line.split(": test")[0]
            found.setdefault(name.split("::")[0], []).append(name)
    return found


def series(folder, program, test):
    """How many runs ended as they should, how many did not, and how many got over the refusal."""
    passed, failed, over, number = 0, 0, 0, 1
    while True:
        (code, out, err), refused = refusing(folder, program, [test], number, number)
        if refused == 0:
            return passed, failed, over
        if code == 0:
            over += 1
        if code == 0 or any(word in out + err for word in NO_MEMORY):
            passed += 1
        else:
            failed += 1
            print("FAILED %s, allocation %d: code %d, %r" % (test, number, code, (out + err)[-200:]))
        number += 1 if number < 200 else 1 + number // 20


def modules_of(name):
    """The program of the tests of a crate, or of a module of it, and its tests by their modules. Nothing where none were built."""
    crate, _, module = name.partition(":")
    program = os.path.join(TOP, "crates", crate, "out", crate + "_tests")
    tests = tests_of(program) if os.path.exists(program) else {}
    return program, {"%s:%s" % (crate, it): tests[it] for it in sorted(tests) if module in ("", it)}


def main():
    names = sys.argv[1:] or sorted(os.listdir(os.path.join(TOP, "crates")))
    passed, failed = 0, 0
    with tempfile.TemporaryDirectory() as folder:
        make_library(folder)
        for name in names:
            program, modules = modules_of(name)
            if not modules:
                print("%s: no tests were built" % name, flush=True)
            for module, tests in modules.items():
                good, bad, over = [sum(column) for column in zip(*[series(folder, program, test) for test in tests])]
                print("%s: %d tests, %d runs, %d got over, %d failed" % (module, len(tests), good + bad, over, bad), flush=True)
                if module in GET_OVER and over == 0:
                    print("FAILED %s: no refusal was got over" % module, flush=True)
                    bad += 1
                passed += good
                failed += bad
    print("%d passed, %d failed" % (passed, failed))
    return 1 if failed or passed == 0 else 0


if __name__ == "__main__":
    sys.exit(main())
