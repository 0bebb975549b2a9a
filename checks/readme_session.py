#!/usr/bin/env python3
"""Runs the commands that the README shows and compares what they print with what it shows.

Use: checks/readme_session.py            The last line is 'N passed, M failed'; the exit code is 0 where none failed.

A command stands in an indented block behind `    $ `, and what it prints is in the lines below it. The commands run in turn, in a new folder that has the built programs
as `sincronia`, `sincronia_stats` and the folder `traces`.
"""
import os
import subprocess
import sys
import tempfile

sys.dont_write_bytecode = True
from program_runs import TOP, build


def session(text):
    """The commands that are shown, each with the text that is shown below it."""
    found = []
    shown = None
    for line in text.split("\n"):
        if line.startswith("    $ "):
            shown = []
            found.append((line[len("    $ ") :], shown))
        elif line.startswith("    ") and shown is not None:
            shown.append(line[len("    ") :])
        else:
            shown = None
    return [(command, "".join(it + "\n" for it in lines)) for command, lines in found]


def main():
    if not build():
        print("the program could not be built\n0 passed, 1 failed")
        return 1
    with open(os.path.join(TOP, "README.md"), encoding="utf-8") as it:
        commands = session(it.read())
    passed = failed = 0
    with tempfile.TemporaryDirectory() as room:
        for name in ("sincronia", "sincronia_stats"):
            os.symlink(os.path.join(TOP, "crates", name, "out", name), os.path.join(room, name))
        os.symlink(os.path.join(TOP, "traces"), os.path.join(room, "traces"))
        for command, shown in commands:
            ran = subprocess.run(["sh", "-c", command], cwd=room, stdout=subprocess.PIPE, stderr=subprocess.STDOUT, text=True, timeout=60)
            if ran.stdout == shown:
                passed += 1
            else:
                failed += 1
                print(f"README: $ {command}\nshown:\n{shown}printed:\n{ran.stdout}", end="")
    if not commands:
        failed += 1
        print("README: no command is shown")
    print(f"{passed} passed, {failed} failed")
    return 1 if failed else 0


if __name__ == "__main__":
    sys.exit(main())
