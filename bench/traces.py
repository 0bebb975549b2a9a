"""Traces for the benchmark, each from a seed of its own: the same bytes each time."""
import random

PORTS = 1024
COFLOWS = 4096
FLOWS = 2**20


def text(ports, coflows, arrivals=None):
    """The trace of coflows, each its mappers and its reducers with their megabytes, and their arrivals in milliseconds: 0 for all where none are given."""
    lines = ["%d %d" % (ports, len(coflows))]
    for ident, (mappers, reducers) in enumerate(coflows, 1):
        lines.append("%d %d %d %s %d %s" % (ident, arrivals[ident - 1] if arrivals else 0, len(mappers), " ".join(map(str, mappers)), len(reducers),
                                            " ".join("%d:%s" % reducer for reducer in reducers)))
    return ("\n".join(lines) + "\n").encode()


# Limits of the text and of the table


def spread():
    r = random.Random(1)
    return text(PORTS, [([r.randrange(1025)], [(r.randrange(1025), 256)]) for _ in range(COFLOWS)])


def large():
    return text(PORTS, [([0], [(0, 2**20)])])


def one_pair():
    return text(PORTS, [([0], [(0, 256)])] * COFLOWS)


def many_fields():
    """50 MB of lines of 3040 mappers each."""
    r = random.Random(1)
    return text(PORTS, [([100 + r.randrange(900) for _ in range(3040)], [(r.randrange(1025), 1)]) for _ in range(COFLOWS)])


def one_location():
    """64 MB of lines of 4096 mappers and 4096 reducers, all on location 0."""
    line = "0 4096 %s 4096 %s" % (" ".join(["0"] * 4096), " ".join(["0:1"] * 4096))
    count = (2**26 - 16) // (len(line) + 6)
    lines = ["1024 %d" % count] + ["%d %s" % (ident, line) for ident in range(1, count + 1)]
    return ("\n".join(lines) + "\n").encode()


def many_locations():
    """64 MB of lines of 4096 mappers on 48 locations and 4096 reducers on 48 others: each pair of locations has one flow, of 85 mappers to 85 reducers."""
    mappers = " ".join(str(number % 48) for number in range(4096))
    reducers = " ".join("%d:4095" % (100 + number % 48) for number in range(4096))
    count = (2**26 - 16) // (len(mappers) + len(reducers) + 20)
    lines = ["1024 %d" % count] + ["%d 0 4096 %s 4096 %s" % (ident, mappers, reducers) for ident in range(1, count + 1)]
    return ("\n".join(lines) + "\n").encode()


# Shapes of load


def hour(scale=1, count=526, spread_out=False, seed=1):
    """A trace of the shape of the public one-hour trace: 150 ports and 526 coflows, most of them short or narrow, and nearly all bytes in the long and wide ones. Sizes are multiplied by the scale.
    With a lesser count it has the first ones of these coflows. All of them arrive at 0, or else over an hour. Each seed gives another one."""
    r = random.Random(seed)

    def between(low, high):
        return low * (high / low) ** r.random()

    coflows = []
    for _ in range(count):
        kind = r.random()
        if kind < 0.52:
            m, n, size = between(1, 8), between(1, 7), between(0.05, 4.9)
        elif kind < 0.68:
            m, n, size = between(1, 8), between(1, 7), between(5, 1000)
        elif kind < 0.83:
            m, n, size = between(12, 151), between(5, 100), between(0.05, 4.9)
        elif kind < 0.87:
            m, n, size = r.randrange(140, 151), r.randrange(140, 151), between(5, 40)
        else:
            m, n, size = between(25, 151), between(15, 151), between(5, 40)
        m, n = min(150, int(m)), min(150, int(n))
        mappers, reducers = sorted(r.sample(range(150), m)), sorted(r.sample(range(150), n))
        coflows.append((mappers, [(place, "%.1f" % max(0.1, scale * size * m * r.uniform(0.5, 1.5))) for place in reducers]))
    return text(150, coflows, sorted(r.randrange(3600000) for _ in coflows) if spread_out else None)


def wide():
    """4096 coflows with up to 2^20 flows together: half of them have a few, and one in ten has many."""
    r = random.Random(2)
    coflows, left = [], FLOWS
    for later in reversed(range(COFLOWS)):
        kind = r.random()
        most = 4 if kind < 0.5 else 30 if kind < 0.9 else 120
        room = left - later
        m = min(r.randint(1, most), room)
        n = max(1, min(r.randint(1, most), room // m))
        left -= m * n
        size = 1 + int(r.random() ** 3 * 16)
        coflows.append((r.sample(range(PORTS), m), [(place, m * size + r.randrange(m)) for place in r.sample(range(PORTS), n)]))
    return text(PORTS, coflows)


def narrow():
    """4096 coflows of one flow."""
    r = random.Random(1)
    return text(PORTS, [([r.randrange(1025)], [(r.randrange(1025), 1 + r.randrange(255))]) for _ in range(COFLOWS)])


def deep(size, more):
    """One coflow of 1024 x 1024 flows, each of `size` megabytes and of less than `more` besides."""
    r = random.Random(3)
    reducers = [(place, PORTS * size + (r.randrange(PORTS * more) if more > 0 else 0)) for place in range(PORTS)]
    return text(PORTS, [(range(PORTS), reducers)])


def mixed():
    """4096 coflows of 16 x 16 flows of mixed sizes over 1024 ports: a trace of 1 MB with a report of 4 GB."""
    r = random.Random(4)
    return text(PORTS, [(sorted(r.sample(range(PORTS), 16)), [(place, r.randrange(16, 25600)) for place in sorted(r.sample(range(PORTS), 16))]) for _ in range(COFLOWS)])


def staircase():
    """One mapper sends 2^20 flows of one megabyte, one after another: as many runs as flows."""
    return text(PORTS, [([0], [(place, 1) for place in range(PORTS)])] * (FLOWS // PORTS))


def many_runs():
    """A trace of one flow of 2^19 units, and a report of it whose 2^20 runs are one slot each, every other one idle."""
    trace = text(1, [([0], [(1, 2**19)])])
    lines = ["sincronia 1", "place 1 1 in 0 %d %d" % (2**40 // 2**19, 2**20), "bound %d" % 2**19, "slack 0", "cost %d" % 2**20]
    return trace, ("\n".join(lines) + "\n" + "run 1\nrun 1 0\n" * 2**19 + "end\n").encode()
