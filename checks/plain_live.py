#!/usr/bin/env python3
"""Runs `sincronia live` over drawn traces and scripts. Where no round has the lines of two clients, or lines beside a run, the text is the one that a plain master makes. Else there is more than
one right text, and the printed one is held against the script: each client's entries are its lines in their order, rounds stand one after another, the driver opens what it should, and pulls
are not behind what was seen. Each text is audited by the plain auditor and by `sincronia audit`, and one is printed with each allocation refused in turn. Rows were worked by hand, bad files among them.

Use: checks/plain_live.py [SCRIPTS]     The last line is 'N passed, M failed'; the exit code is 0 where none failed.
"""
import random
import subprocess
import sys
import tempfile

sys.dont_write_bytecode = True
from master_journal import Master
from plain_audit import DRAWN, Live, audited, live_of, live_text, numbered, order_of, spoken
from plain_master import CUBE, SQUARE, TWO
from plain_plan import drawn, trace_text, weights_text, write
from program_runs import PROGRAM, build, started
from refused_memory import NO_MEMORY, make_library, refusing

# A script is a list of rounds: lines, each a client and the words of what it asks, and the last line of the round, which may be lacking for the last round.


def script_text(rounds):
    return "".join("".join("%s\n" % " ".join(map(str, (client, *words))) for client, words in lines) + (end + "\n" if end else "") for lines, end in rounds)


def numbered_lines(rounds):
    """The lines of each round, each with its number in the text, and whether a run stands beside them."""
    found, number = [], 0
    for lines, end in rounds:
        found.append(([(number + k, client, words) for k, (client, words) in enumerate(lines, 1)], end == "slot"))
        number += len(lines) + (1 if end else 0)
    return found


# Texts that are the only ones


def is_sure(rounds):
    """Whether no two callers ask beside each other."""
    return all(len({client for client, _ in lines} | ({0} if end == "slot" else set())) <= 1 for lines, end in rounds)


def played(ports, coflows, rounds, most):
    """The printed journal of a script that has one."""
    idents = [coflow.ident for coflow in coflows]
    master, entries, pulls = Master(ports, coflows, 2**23), [], []

    def ask(who, command):
        reply = spoken(master.ask(who, numbered(idents, command)))
        entries.append((who, command, reply))
        return reply

    def run():
        """Whether a run was opened, which is closed then."""
        opened = ask(0, ("open", most))[0] == "opened"
        if opened:
            ask(0, ("close",))
        return opened

    for lines, beside in numbered_lines(rounds):
        for number, client, words in lines:
            if words[0] == "pull":
                n = len(master.journal)
                pulls.append((client, number, words[1], master.version(n), master.rank(n, idents.index(words[1]))))
            else:
                ask(client, words)
        if beside:
            run()
    while run():
        pass
    orders = [order_of(master, idents, version) for version in range(1, master.version(len(entries)) + 1)]
    return Live(entries, orders, sorted(pulls), [(length, list(flows)) for length, flows in master.schedule()])


# Texts of which there is more than one


def newest_at(live):
    """The newest version behind each number of entries."""
    versions = [0]
    for _, _, reply in live.entries:
        versions.append(versions[-1] + (reply[0] == "version"))
    return versions


def positions_of(live, rounds, pulls):
    """The position of the entry of each line by its number, None where a pull has none; or why the entries of a client are not its lines."""
    own = {}
    for position, (who, command, reply) in enumerate(live.entries, 1):
        own.setdefault(who, []).append((position, command, reply))
    at = {}
    for lines, _ in numbered_lines(rounds):
        for number, client, words in lines:
            left = own.get(client, [])
            if words[0] != "pull":
                if not left or left[0][1] != words:
                    return "line %d has no entry" % number
                at[number] = left.pop(0)[0]
            elif left and left[0][1] == words and left[0][2][1] == pulls.get((client, number), (0, None))[1]:
                at[number] = left.pop(0)[0]
            else:
                at[number] = None
    rest = [who for who, left in own.items() if who and left]
    return "client %d has an entry too many" % rest[0] if rest else at


def driver_fault(live, rounds, most, at):
    """What is wrong with what the driver asked, or None."""
    opens = [(position, reply) for position, (who, command, reply) in enumerate(live.entries, 1) if who == 0 and command == ("open", most)]
    others = [command for who, command, _ in live.entries if who == 0 and command not in (("open", most), ("close",))]
    if others:
        return "the driver asked %s" % (others[0],)
    for position, reply in opens:
        later = [command for who, command, _ in live.entries[position:] if who == 0]
        if (later[:1] == [("close",)]) != (reply[0] == "opened"):
            return "the run at %d is not closed" % position
    facts = numbered_lines(rounds)
    last = {k: max([at[number] for number, _, _ in lines if at[number]] or [0]) for k, (lines, _) in enumerate(facts)}
    first = {k: min([at[number] for number, _, _ in lines if at[number]] or [len(live.entries) + 1]) for k, (lines, _) in enumerate(facts)}
    for k in range(len(facts)):
        if any(first[later] < last[k] for later in range(k + 1, len(facts))):
            return "round %d stands behind a later one" % k
    beside = [k for k, (_, runs) in enumerate(facts) if runs]
    if len(opens) < len(beside) + 1:
        return "%d openings" % len(opens)
    for k, (position, _) in zip(beside, opens):
        if any(last[earlier] > position for earlier in range(k)) or any(first[later] < position for later in range(k + 1, len(facts))):
            return "the run beside round %d stands elsewhere" % k
    after = opens[len(beside) :]
    if any(last[k] > after[0][0] for k in last):
        return "a run is opened before the last round ended"
    return None if [reply[0] for _, reply in after] == ["opened"] * (len(after) - 1) + ["nothing"] else "the last openings are %s" % (after,)


def pull_fault(live, rounds, at, pulls):
    """What is wrong with what pulls were told, or None."""
    newest, seen, earlier = newest_at(live), {}, 0
    for lines, _ in numbered_lines(rounds):
        for number, client, words in lines:
            if words[0] == "pull":
                ident, version = pulls.get((client, number), (None, 0))
                if ident != words[1] or version < max(seen.get(client, 0), earlier) or version > newest[-1]:
                    return "pull of line %d was told version %d" % (number, version)
                seen[client] = version
            else:
                seen[client] = max(seen.get(client, 0), newest[at[number]])
        earlier = max([earlier, *(seen[client] for _, client, _ in lines)])
    return None


def fault_of(ports, coflows, rounds, most, text):
    """What is wrong with a text of which there is more than one, or None."""
    live = live_of("/".join(text.split("\n")[1:-2]) + "/" if text.count("\n") > 2 else "")
    if live_text(live) != text:
        return "the text is spelled otherwise"
    pulls = {(client, line): (ident, version) for client, line, ident, version, _ in live.pulls}
    asked = sorted((client, number) for lines, _ in numbered_lines(rounds) for number, client, words in lines if words[0] == "pull")
    if asked != [pull[:2] for pull in live.pulls]:
        return "the pulls are %s" % (live.pulls,)
    at = positions_of(live, rounds, pulls)
    if isinstance(at, str):
        return at
    return driver_fault(live, rounds, most, at) or pull_fault(live, rounds, at, pulls)


# Drawn scripts


def asked(r, idents):
    word = r.choices(["register", "withdraw", "publish", "pull", "reweigh"], [5, 1, 3, 4, 1])[0]
    return (word, *{"publish": [], "reweigh": [r.choice(idents), r.randint(1, 4)]}.get(word, [r.choice(idents)]))


def scripted(r, idents, sure):
    """A drawn script. Where it should have one text, each round is one caller's."""
    rounds = []
    for k in range(r.choice([0, 1, 3, 8])):
        client, beside = r.randint(1, 4), r.randrange(3) == 0
        lines = [] if sure and beside else [(client if sure else r.choice([1, 2, 3, 64]), asked(r, idents)) for _ in range(r.choice([0, 1, 4]))]
        rounds.append((lines, "slot" if beside else "wait"))
    if rounds and rounds[-1] == (rounds[-1][0], "wait") and rounds[-1][0] and r.randrange(2):
        rounds[-1] = rounds[-1][0], ""
    return rounds


def case(seed):
    """The ports, the coflows, a script and the slots of a run."""
    r = random.Random(seed)
    ports, coflows = (SQUARE, CUBE)[seed % 2] if seed % 5 < 2 else drawn(DRAWN[0], r)[:2]
    return ports, coflows, scripted(r, [coflow.ident for coflow in coflows], seed % 2 == 0), r.choice([1, 2, 3, 2**40])


# Rows that were worked by hand, over a coflow of 3 units with id 1 and one of 1 unit with id 2, both from port 0 to port 1, of weight 1: a script, the slots of a run (None: as many as the
# program takes when it is not told), and the text without its first and its last line
ROWS = [
    ("", 1, "entry 1 0 open 1 nothing/"),
    ("1 register 1/1 register 2/1 publish/1 pull 2/wait/", 4,
     "entry 1 1 register 1 joined/entry 2 1 register 2 joined/entry 3 1 publish version 1/entry 4 0 open 4 opened 1 1 1/entry 5 0 close closed 1/entry 6 0 open 4 opened 2 3 1/"
     "entry 7 0 close closed 2/entry 8 0 open 4 nothing/order 1 2 1/pull 1 4 2 1 1/run 1 1/run 3 0/"),
    ("1 register 1/1 register 2/1 publish/1 pull 2/wait/", None,
     "entry 1 1 register 1 joined/entry 2 1 register 2 joined/entry 3 1 publish version 1/entry 4 0 open 1 opened 1 1 1/entry 5 0 close closed 1/entry 6 0 open 1 opened 2 1 1/"
     "entry 7 0 close closed 2/entry 8 0 open 1 opened 3 1 1/entry 9 0 close closed 3/entry 10 0 open 1 opened 4 1 1/entry 11 0 close closed 4/entry 12 0 open 1 nothing/"
     "order 1 2 1/pull 1 4 2 1 1/run 1 1/run 3 0/"),
    ("1 register 1/1 publish/wait/2 pull 1/wait/", 4,
     "entry 1 1 register 1 joined/entry 2 1 publish version 1/entry 3 0 open 4 opened 1 3 1/entry 4 0 close closed 1/entry 5 0 open 4 nothing/order 1 1/pull 2 4 1 1 1/run 3 0/"),
    ("1 register 1/1 register 2/1 reweigh 1 9/1 publish/wait/", 4,
     "entry 1 1 register 1 joined/entry 2 1 register 2 joined/entry 3 1 reweigh 1 9 weighed 1/entry 4 1 publish version 1/entry 5 0 open 4 opened 1 3 1/entry 6 0 close closed 1/"
     "entry 7 0 open 4 opened 4 1 1/entry 8 0 close closed 4/entry 9 0 open 4 nothing/order 1 1 2/run 3 0/run 1 1/"),
    ("1 register 1/1 register 1/wait/slot/2 withdraw 1/2 withdraw 2/2 reweigh 1 2/64 pull 1/", 2**40,
     "entry 1 1 register 1 joined/entry 2 1 register 1 already/entry 3 0 open 1099511627776 opened 1 3 1/entry 4 0 close closed 1/entry 5 2 withdraw 1 left/entry 6 2 withdraw 2 nothere/"
     "entry 7 2 reweigh 1 2 nothere/entry 8 0 open 1099511627776 nothing/pull 64 8 1 0 0/run 3 0/"),
    ("1 register 1/wait/1 reweigh 1 7/1 pull 1/wait/1 withdraw 1/1 withdraw 1/", 3,
     "entry 1 1 register 1 joined/entry 2 1 reweigh 1 7 weighed 1/entry 3 1 withdraw 1 left/entry 4 1 withdraw 1 nothere/entry 5 0 open 3 nothing/pull 1 4 1 0 0/"),
    ("slot/slot/", 3, "entry 1 0 open 3 nothing/entry 2 0 open 3 nothing/entry 3 0 open 3 nothing/"),
]


TRACE = b"2 2\n1 0 1 0 1 1:3\n2 0 1 0 1 1:1\n"
MANY = b"1 1\n1 0 1 0 1 1:1048577\n"  # a unit more than clients may share
LIVE = ["live", "t", "s"]

# what is wrong, the bytes of the trace and of the script (None: there is no such file), the words, the exit code, and the line on standard error
BAD_ROWS = [
    ("an id that no coflow has", TRACE, b"1 register 9\nwait\n", LIVE, 6, b"script: line 1 field 3"),
    ("no such word", TRACE, b"1 jump\nwait\n", LIVE, 6, b"script: line 1 field 2"),
    ("no client", TRACE, b"\n one publish\n", LIVE, 6, b"script: line 2 field 1"),
    ("a field behind the end of a round", TRACE, b"1 publish\nwait 1\n", LIVE, 6, b"script: line 2 field 2"),
    ("a field too few", TRACE, b"1 reweigh 1\n", LIVE, 6, b"script: line 1 field 4"),
    ("a field too many", TRACE, b"1 reweigh 1 2 3\n", LIVE, 6, b"script: line 1 field 5"),
    ("a client past the last", TRACE, b"65 publish\nwait\n", LIVE, 7, b"limit: clients 65"),
    ("a weight of 0", TRACE, b"1 reweigh 1 0\n", LIVE, 7, b"limit: weight 0"),
    ("65537 lines", TRACE, b"wait\n" * 65537, LIVE, 7, b"limit: commands 65537"),
    ("2^26 + 1 bytes", TRACE, b"\n" * (2**26 + 1), LIVE, 7, b"limit: text 67108865"),
    ("no such script", TRACE, None, LIVE, 8, b"read fault"),
    ("too many units, and no such script", MANY, None, LIVE, 7, b"limit: units 1048577"),
    ("a bad trace, and no such script", b"", None, LIVE, 3, b"trace: bad header"),
    ("one name", TRACE, b"", LIVE[:2], 2, b"usage: sincronia COMMAND FIRST [SECOND] [options]"),
    ("no slot of a run", TRACE, b"", [*LIVE, "--run", "0"], 2, b"usage: sincronia COMMAND FIRST [SECOND] [options]"),
]


# The comparison


def ended(trace, script, words, stdout=None):
    """The exit code, standard output and standard error over these files."""
    with tempfile.TemporaryDirectory() as folder:
        return started(folder, {"t": trace, "s": script}, words, stdout)


def printed(folder, ports, coflows, script, most, agents):
    """What the built program prints of the script, whose runs have at most so many slots, or, with None, as many as the program gives them."""
    for name, text in (("trace", trace_text(ports, coflows)), ("weights", weights_text(coflows)), ("script", script)):
        write(folder, name, text)
    run = ["--run", str(most)] if most else []
    words = ["live", "trace", "script", "--weights", "weights", *run, "--agents", str(agents)]
    ran = subprocess.run([PROGRAM, *words], cwd=folder, stdin=subprocess.DEVNULL, capture_output=True, timeout=120)
    return ran.stdout.decode() if ran.returncode == 0 and not ran.stderr else "exit code %d, %r and %r" % (ran.returncode, ran.stdout, ran.stderr)


def audit(folder, text):
    """The line of the built program's own audit."""
    write(folder, "journal", text)
    ran = subprocess.run([PROGRAM, "audit", "trace", "journal", "--weights", "weights"], cwd=folder, stdin=subprocess.DEVNULL, capture_output=True, timeout=60)
    return ran.stdout.decode()[:-1] if ran.returncode in (0, 1) else "exit code %d, %r" % (ran.returncode, ran.stderr)


def results(folder, count):
    """What is compared, what the program did, and what it should have done."""
    for script, most, lines in ROWS:
        want = "".join(line + "\n" for line in ["sincronia live 1", *lines.split("/")[:-1], "end"])
        yield "row %r" % script, printed(folder, *TWO, script.replace("/", "\n"), most, 4), want
    for name, trace, script, words, code, line in BAD_ROWS:
        yield name, ended(trace, script, words), (code, b"", b"sincronia: %s\n" % line)
    yield "as many units as clients may share", ended(MANY.replace(b"77", b"76"), b"", LIVE), (0, b"sincronia live 1\nentry 1 0 open 1 nothing\nend\n", b"")
    with open("/dev/full", "wb") as full:
        yield "a full device", ended(TRACE, b"", LIVE, full), (9, b"", b"sincronia: write fault\n")
    for seed in range(count):
        ports, coflows, rounds, most = case(seed)
        text = printed(folder, ports, coflows, script_text(rounds), most, (1, 2, 4, 64)[seed // 2 % 4])
        if is_sure(rounds):
            yield "script %d" % seed, text, live_text(played(ports, coflows, rounds, most))
        elif not text.startswith("sincronia live 1\n"):
            yield "script %d" % seed, text, "a text"
            continue
        else:
            yield "script %d" % seed, fault_of(ports, coflows, rounds, most, text), None
        live = live_of("/".join(text.split("\n")[1:-2]) + "/")
        line = "yes entries %d versions %d slots %d" % (len(live.entries), len(live.orders), sum(length for length, _ in live.runs))
        yield "script %d, audited" % seed, (audited(ports, coflows, live), audit(folder, text)), (line, line)
    yield "refused allocations", refused(folder), (True, True, True)


def refused(folder):
    """Whether a script is printed whole or ends with an error where an allocation is refused, each alone; whether it once does, and whether there are many of them."""
    script, most, lines = ROWS[1]
    want = printed(folder, *TWO, script.replace("/", "\n"), most, 2)
    words = ["live", "trace", "script", "--weights", "weights", "--run", str(most), "--agents", "2"]
    ends = set()
    for number in range(1, 10**4):
        (code, out, err), count = refusing(folder, PROGRAM, words, number, number)
        if count == 0:
            break
        ends.add(out.decode() if code == 0 else "error" if (code, out, err) == NO_MEMORY else "exit code %d, %r and %r" % (code, out, err))
    return ends <= {"error", want}, "error" in ends, number > 20


def main():
    count = int(sys.argv[1]) if len(sys.argv) > 1 else 300
    passed = failed = 0
    if not build():
        print("the program could not be built\n0 passed, 1 failed")
        return 1
    with tempfile.TemporaryDirectory() as folder:
        make_library(folder)
        for name, have, want in results(folder, count):
            if have != want:
                print("%s: %s and not %s" % (name, have, want))
            passed, failed = passed + (have == want), failed + (have != want)
    print("%d passed, %d failed" % (passed, failed))
    return 1 if failed else 0


if __name__ == "__main__":
    sys.exit(main())
