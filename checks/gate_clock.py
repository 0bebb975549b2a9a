#!/usr/bin/env python3
"""Runs `rt ci` and tells how long each crate's proof, tests, edits and builds took.

Use: checks/gate_clock.py rt ci            The exit code is that of the command.

The command's lines go on as they come. Beside it the script looks twice a second which checks are running: `rt ci` says only when one has ended. When a check has ended, and behind the last
line for each crate and kind, comes a line which checks/gate_times reads, so that a run that is cut off has told what it took:

    clock: CRATE KIND SECONDS PROCESSOR_SECONDS CHECKS
    clock: whole SECONDS

KIND is `proof`, `tests`, `edits` or `builds`, and CHECKS says how many processes there were. The check of an edit runs in a folder of its own, by which it is known. The edits of a crate are tried one
after another; the first of them proves the whole crate again, and a last check has no edit. A program that was proved is built by two compilers, one after the other: these are its builds, which prove
nothing. A crate of tests is proved and built at once.
"""
import os
import subprocess
import sys
import threading
import time

EACH = 0.5
TICK = os.sysconf("SC_CLK_TCK")


def read(path):
    try:
        with open(path, "rb") as it:
            return it.read().decode(errors="replace")
    except OSError:
        return ""


def stats():
    """Each process: its parent, the ticks of it and of those that it waited for, and when it began, since a number may be used again."""
    found = {}
    for name in os.listdir("/proc"):
        if name.isdigit():
            said = read(f"/proc/{name}/stat").rpartition(")")[2].split()
            if len(said) > 19:
                found[int(name)] = int(said[1]), sum(map(int, said[11:15])), int(said[19])
    return found


def below(root, all_stats):
    """The processes that the root started, with those that these started."""
    children = {}
    for pid, (parent, _, _) in all_stats.items():
        children.setdefault(parent, []).append(pid)
    found, waiting = [], [root]
    while waiting:
        for pid in children.get(waiting.pop(), []):
            found.append(pid)
            waiting.append(pid)
    return found


def task_of(pid):
    """The crate and the kind of a check or a build, or None for another process."""
    words = read(f"/proc/{pid}/cmdline").split("\0")
    if "--crate-name" not in words or not words[0].endswith("rattle"):
        return None
    crate = words[words.index("--crate-name") + 1]
    try:
        folder = os.path.basename(os.readlink(f"/proc/{pid}/cwd"))
    except OSError:
        return None
    if folder.startswith("rt-edit-"):
        return crate, "edits"
    if "--test" in words:
        return crate, "tests"
    return crate, "builds" if "--backend" in words else "proof"


class Clock:
    def __init__(self, root):
        self.root = root
        self.seen = {}
        self.running = set()

    def look(self):
        """Notes for each check that runs now when it was seen first and last, and its ticks. The tasks of those that have ended."""
        now, all_stats, running = time.monotonic(), stats(), set()
        for pid in below(self.root, all_stats):
            parent, ticks, began = all_stats[pid]
            above = parent, all_stats[parent][2] if parent in all_stats else 0
            if (pid, began) in self.seen:
                self.seen[pid, began][2:] = [now, ticks]
                running.add((pid, began))
            elif above not in self.seen and (task := task_of(pid)):
                self.seen[pid, began] = [task, now, now, ticks]
                running.add((pid, began))
        over, self.running = self.running - running, running
        return {self.seen[it][0] for it in over}

    def watch(self, ended):
        while not ended.wait(EACH):
            if over := self.look():
                self.tell(over)

    def tell(self, tasks):
        totals = self.totals()
        for crate, kind in sorted(tasks):
            seconds, used, checks = totals[crate, kind]
            print(f"clock: {crate} {kind} {seconds:.0f} {used:.0f} {checks}", flush=True)

    def totals(self):
        """The seconds, the processor seconds and the number of checks of each crate and kind."""
        found = {}
        for task, first, last, ticks in self.seen.values():
            seconds, used, checks = found.get(task, (0, 0, 0))
            found[task] = seconds + last - first + EACH, used + ticks / TICK, checks + 1
        return found


def main(words):
    begin = time.monotonic()
    ran = subprocess.Popen(words, stdout=subprocess.PIPE)
    clock, ended = Clock(ran.pid), threading.Event()
    watcher = threading.Thread(target=clock.watch, args=[ended], daemon=True)
    watcher.start()
    for line in ran.stdout:
        sys.stdout.buffer.write(line)
        sys.stdout.buffer.flush()
    status = ran.wait()
    ended.set()
    watcher.join()
    clock.tell(clock.totals())
    print(f"clock: whole {time.monotonic() - begin:.0f}", flush=True)
    return status if status >= 0 else 128 - status


if __name__ == "__main__":
    sys.exit(main(sys.argv[1:]))
