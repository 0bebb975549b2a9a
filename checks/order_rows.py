"""What the built program prints of comparisons, of classes and of given orders: rows for checks/program_runs.py, whose bytes were worked out by hand."""
from program_rows import READ_FAULT, TOO_MANY, TWO, TWO_TEXT, USAGE


def comparison(bound, bssi, sebf, fifo, first, second):
    """The text of a comparison. The answers of all rankers but the last are the same before and after they are told."""
    costs = [(b"bssi", bssi, bssi), (b"sebf", sebf, sebf), (b"fifo", fifo, fifo), (b"attained", first, second)]
    rows = [b"row %d %d %s cost %d\n" % (index, turn + 1, name, both[turn]) for index, (name, *both) in enumerate(costs, 1) for turn in range(2)]
    return b"sincronia compare 1\nbound %d\n" % bound + b"".join(rows) + b"end\n"


COMPARE = ["compare", "t"]
CLASSES = ["classes", "t"]
TWO_COMPARED = b"""sincronia compare 1
bound 5
row 1 1 bssi cost 5
row 1 2 bssi cost 5
row 2 1 sebf cost 5
row 2 2 sebf cost 5
row 3 1 fifo cost 7
row 3 2 fifo cost 7
row 4 1 attained cost 7
row 4 2 attained cost 7
end
"""
# Classes 1 and 2. Coflow 2, of 1 unit, comes first, and its cap is 1 + 1 - 1. That of coflow 1, of 3 units, is 4 + 4 - 3.
TWO_CLASSES = b"""sincronia classes 1
member 1 2
member 2 1
cap 6
cost 5
run 1 1
run 3 0
end
"""
# The first coflow ends in slot 5 in either order. The second one waits one slot for it where it comes later: both need egress port 1.
FORK = b"2 2\n1 0 1 0 2 1:1 2:4\n2 0 1 1 1 1:1\n"
# Ports 0 and 1, and a coflow on each: they do not meet. The last coflow has no units.
APART = b"1 3\n5 0 1 0 1 0:2\n9 0 1 1 1 1:2\n7 0 1 0 0\n"
# One class. The cap of coflow 1 is 4 + 4 - 3, and that of coflow 2 is 4 + 4 - 1.
ONE_CLASS = b"sincronia classes 1\nmember 1 1\nmember 1 2\ncap 12\ncost 7\nrun 3 0\nrun 1 1\nend\n"
NO_CLASS = b"sincronia classes 1\ncap 0\ncost 0\nend\n"
# The order of the plan of TWO is 2, 1, and coflow 1 begins behind 1 of 4 units: in the first half or third, in the second quarter, in the third eighth, and in the 17th of 64 parts.
# That of APART is 7, 9, 5, and coflow 5 begins behind 2 of 4 units, in the second third.
BY_LOAD = CLASSES + ["--fold", "load", "--classes"]
# The order of the plan is 4, 2, 3, 1, and the bottlenecks are 2, 3, 2 and 6. So the coflows begin behind 0, 2, 5 and 7 of 13 units: by quarters in the first, the first, the second and the third.
# In class 1 coflow 2 has a cap of 3 + 3 - 1 by its flow to port 0, and coflow 4 one of 2 + 3 - 2; then comes coflow 3 with 4 + 4 - 2, and coflow 1 with 6 + 10 - 3 by its flow from port 2.
FOUR = b"2 4\n1 20 2 1 2 1 2:6\n2 30 1 2 2 0:1 2:2\n3 10 1 0 1 2:2\n4 0 1 0 1 0:2\n"
FOUR_CLASSES = b"""sincronia classes 1
member 1 2
member 1 4
member 2 3
member 3 1
cap 27
cost 20
run 1 2 4
run 2 3 5
run 1 4
run 3 0
run 3 1
end
"""
# Coflow 1 sends a unit on each of four flows between two ports a side: its bottleneck is 2, and that of coflow 2 is 3. The order of the plan is 1, 2, and coflow 2 begins behind 2 of 5 units.
# Counted by all their units it would begin behind 4 of 7. In one class the caps are 5 + 5 - 1 and 5 + 5 - 3.
WIDE = b"2 2\n1 0 2 0 1 2 0:2 1:2\n2 0 1 0 1 0:3\n"
WIDE_CLASSES = b"""sincronia classes 1
member 1 1
member 1 2
cap 16
cost 7
run 1 0 3
run 1 1 2
run 3 4
end
"""

# rows as above
COMPARE_ROWS = [
    ("two flows compared", TWO, None, COMPARE, 0, TWO_COMPARED, b""),
    ("no coflow compared", b"2 0\n", None, COMPARE, 0, comparison(0, 0, 0, 0, 0, 0), b""),
    ("weights compared", TWO, b"1 5\n2 1\n", COMPARE + ["--weights", "w"], 0, comparison(19, 19, 21, 19, 19, 19), b""),
    ("two megabytes to a unit compared", TWO, None, COMPARE + ["--unit=2"], 0, comparison(4, 4, 4, 5, 5, 5), b""),
    ("a later arrival compared", TWO.replace(b"1 0 1", b"1 16 1", 1), None, COMPARE, 0, comparison(5, 5, 5, 5, 7, 7), b""),
    ("an order that is learned", FORK, None, COMPARE, 0, comparison(6, 6, 6, 7, 7, 6), b""),
    ("options that compare does not use", TWO, None, ["--classes=1", "compare", "--agents", "64", "--", "t"], 0, TWO_COMPARED, b""),
    ("two names compared", TWO, None, COMPARE + ["t"], 2, b"", USAGE),
    ("no name compared", TWO, None, ["compare"], 2, b"", USAGE),
    ("a dash compared", TWO, None, ["compare", "-"], 2, b"", USAGE),
    ("compare with a unit of 0", TWO, None, COMPARE + ["--unit", "0"], 2, b"", USAGE),
    ("an empty file compared", b"", None, COMPARE, 3, b"", b"sincronia: trace: bad header\n"),
    ("a repeated id compared", TWO.replace(b"\n2 0 1", b"\n1 0 1"), None, COMPARE, 3, b"", b"sincronia: trace: line 3 repeats id 1\n"),
    ("a bad trace and no such weights compared", b"", None, COMPARE + ["--weights", "w"], 3, b"", b"sincronia: trace: bad header\n"),
    ("a weight of no coflow compared", TWO, b"9 1\n", COMPARE + ["--weights", "w"], 4, b"", b"sincronia: weights: line 1 unknown id 9\n"),
    ("a weight of 0 compared", TWO, b"1 0\n", COMPARE + ["--weights", "w"], 7, b"", b"sincronia: limit: weight 0\n"),
    ("no such file compared", None, None, COMPARE, 8, b"", READ_FAULT),
    ("no such weights compared", TWO, None, COMPARE + ["--weights", "w"], 8, b"", READ_FAULT),
]
CLASS_ROWS = [
    ("two classes", TWO, None, CLASSES + ["--classes", "2"], 0, TWO_CLASSES, b""),
    ("one class", TWO, None, CLASSES + ["--classes", "1"], 0, ONE_CLASS, b""),
    ("eight classes, as none are said", TWO, None, CLASSES, 0, TWO_CLASSES.replace(b"member 2 1", b"member 5 1"), b""),
    ("as many classes as there may be", TWO, None, ["--classes=64"] + CLASSES, 0, TWO_CLASSES.replace(b"member 2 1", b"member 33 1"), b""),
    ("classes with leading zeros", TWO, None, CLASSES + ["--classes", "002"], 0, TWO_CLASSES, b""),
    ("classes of no coflow", b"2 0\n", None, CLASSES, 0, NO_CLASS, b""),
    ("classes of coflows that do not meet", APART, None, CLASSES + ["--classes", "1"], 0,
     b"sincronia classes 1\nmember 1 5\nmember 1 9\nmember 1 7\ncap 4\ncost 4\nrun 2 0 1\nend\n", b""),
    ("classes of weights", TWO, b"1 5\n2 1\n", CLASSES + ["--weights", "w", "--classes", "2"], 0,
     b"sincronia classes 1\nmember 1 1\nmember 2 2\ncap 22\ncost 19\nrun 3 0\nrun 1 1\nend\n", b""),
    ("classes of two megabytes to a unit", TWO, None, CLASSES + ["--unit", "2", "--classes", "2"], 0,
     b"sincronia classes 1\nmember 1 2\nmember 2 1\ncap 5\ncost 4\nrun 1 1\nrun 2 0\nend\n", b""),
    ("classes by count", TWO, None, CLASSES + ["--classes", "2", "--fold", "count"], 0, TWO_CLASSES, b""),
    ("no class", TWO, None, CLASSES + ["--classes", "0"], 2, b"", USAGE),
    ("too many classes", TWO, None, CLASSES + ["--classes", "65"], 2, b"", USAGE),
    ("classes that are no number", TWO, None, CLASSES + ["--classes", "x"], 2, b"", USAGE),
    ("classes without a number", TWO, None, CLASSES + ["--classes"], 2, b"", USAGE),
    ("classes twice", TWO, None, CLASSES + ["--classes=2", "--classes", "2"], 2, b"", USAGE),
    ("an option of another name", TWO, None, CLASSES + ["--class", "2"], 2, b"", USAGE),
    ("classes of two names", TWO, None, CLASSES + ["t"], 2, b"", USAGE),
    ("classes of no name", TWO, None, ["classes"], 2, b"", USAGE),
    ("classes of a line too few", b"3 3\n1 0 1 0 1 1:1\n2 0 1 0 1 1:1\n", None, CLASSES, 3, b"", b"sincronia: trace: have 2 lines, want 3\n"),
    ("classes of two weights of a coflow", TWO, b"1 2\n1 3\n", CLASSES + ["--weights", "w"], 4, b"", b"sincronia: weights: line 2 repeats id 1\n"),
    ("classes of too many units", TOO_MANY, None, CLASSES, 7, b"", b"sincronia: limit: units 1099511627777\n"),
    ("classes of no such file", None, None, CLASSES, 8, b"", READ_FAULT),
    ("classes of no such weights", TWO, None, CLASSES + ["--weights", "w"], 8, b"", READ_FAULT),
    ("two classes by load", TWO, None, BY_LOAD + ["2"], 0, ONE_CLASS, b""),
    ("three classes by load", TWO, None, BY_LOAD + ["3"], 0, ONE_CLASS, b""),
    ("four classes by load", TWO, None, BY_LOAD + ["4"], 0, TWO_CLASSES, b""),
    ("eight classes by load, as none are said", TWO, None, CLASSES + ["--fold", "load"], 0, TWO_CLASSES.replace(b"member 2 1", b"member 3 1"), b""),
    ("as many classes by load as there may be", TWO, None, BY_LOAD + ["64"], 0, TWO_CLASSES.replace(b"member 2 1", b"member 17 1"), b""),
    ("a fold before the command", TWO, None, ["--fold=load"] + CLASSES + ["--classes=4"], 0, TWO_CLASSES, b""),
    ("classes by load of four coflows", FOUR, None, BY_LOAD + ["4"], 0, FOUR_CLASSES, b""),
    ("classes by the bottleneck, not by all units", WIDE, None, BY_LOAD + ["2"], 0, WIDE_CLASSES, b""),
    ("classes by load of weights", TWO, b"1 5\n2 1\n", BY_LOAD + ["2", "--weights", "w"], 0,
     b"sincronia classes 1\nmember 1 1\nmember 2 2\ncap 22\ncost 19\nrun 3 0\nrun 1 1\nend\n", b""),
    ("classes by load of two megabytes to a unit", TWO, None, BY_LOAD + ["3", "--unit", "2"], 0,
     b"sincronia classes 1\nmember 1 2\nmember 2 1\ncap 5\ncost 4\nrun 1 1\nrun 2 0\nend\n", b""),
    ("classes by load of a coflow without load", APART, None, BY_LOAD + ["3"], 0,
     b"sincronia classes 1\nmember 1 9\nmember 1 7\nmember 2 5\ncap 4\ncost 4\nrun 2 0 1\nend\n", b""),
    ("classes by load where none has load", b"1 2\n5 0 1 0 0\n9 0 1 1 0\n", None, BY_LOAD + ["2"], 0, b"sincronia classes 1\nmember 1 5\nmember 1 9\ncap 0\ncost 0\nend\n", b""),
    ("classes by count where none has load", b"1 2\n5 0 1 0 0\n9 0 1 1 0\n", None, CLASSES + ["--fold=count", "--classes=2"], 0,
     b"sincronia classes 1\nmember 1 5\nmember 2 9\ncap 0\ncost 0\nend\n", b""),
    ("classes by load of no coflow", b"2 0\n", None, BY_LOAD + ["2"], 0, NO_CLASS, b""),
    ("classes by load of one coflow", b"2 1\n1 0 1 0 1 1:3\n", None, BY_LOAD + ["2"], 0, b"sincronia classes 1\nmember 1 1\ncap 3\ncost 3\nrun 3 0\nend\n", b""),
    ("a fold that is not used", TWO, None, ["--fold", "load", "plan", "t"], 0, TWO_TEXT, b""),
    ("a fold of another name", TWO, None, CLASSES + ["--fold", "x"], 2, b"", USAGE),
    ("a fold in capitals", TWO, None, CLASSES + ["--fold", "LOAD"], 2, b"", USAGE),
    ("a fold without a value", TWO, None, CLASSES + ["--fold"], 2, b"", USAGE),
    ("an empty fold", TWO, None, CLASSES + ["--fold="], 2, b"", USAGE),
    ("a fold twice", TWO, None, CLASSES + ["--fold=load", "--fold", "load"], 2, b"", USAGE),
    ("two folds", TWO, None, ["--fold=count"] + CLASSES + ["--fold", "load"], 2, b"", USAGE),
    ("a fold that is not used, of another name", TWO, None, ["plan", "t", "--fold", "x"], 2, b"", USAGE),
]

# a trace, the weights of its coflows, and what the orders of the rankers cost: of the last one before and after it is told. In the first the second coflow is worth ten times as much by its weight, and its
# bottleneck is the greater one; in the second all five orders cost something else
COSTS = [
    (b"2 2\n1 1 1 0 1 1:1\n2 0 1 0 1 1:3\n", b"1 1\n2 10\n", (34, 41, 34, 41, 41)),
    (b"2 4\n1 20 2 1 2 1 2:6\n2 30 1 2 2 0:1 2:2\n3 10 1 0 1 2:2\n4 0 1 0 1 0:2\n", b"", (19, 20, 24, 27, 26)),
]

GIVEN = ["serve", "t", "r"]
# The plan of the trace of three jobs serves 2, 1, 3. Served 3, 2, 1 the flows are 2 and 3, then 0 and 4 for two slots, then 1 for two: the coflows end in slots 3, 1 and 5.
THREE = b"2 3\n1 0 2 1 2 1 1:4\n2 0 1 1 1 2:1\n3 0 1 2 2 1:1 2:2\n"
THREE_GIVEN = b"""sincronia 2
place 1 2 in 1 1099511627776 1 1
place 2 1 out 1 91625968981 5 1
place 3 3 in 2 366503875925 3 1
bound 9
slack 1
cost 9
run 1 2 3
run 2 0 4
run 2 1
end
"""
# Two flows of one port, the longer one first.
TWO_GIVEN = b"""sincronia 2
place 1 2 in 0 733007751851 4 1
place 2 1 in 0 366503875925 3 1
bound 5
slack 1
cost 7
run 3 0
run 1 1
end
"""
# Coflow 1 has 64 units and weight 1, coflow 2 one unit and weight 10. The last place is that of coflow 1 and pays a 64th of a weight of 1 for each unit, the first one pays 10 less that.
# So the bound is half of 2 * (10 - 1/64) + (65 * 65 + 64 * 64 + 1) / 64, which is 75. With coflow 1 first the cost is 64 + 10 * 65, which is above four times that.
LONG = b"2 2\n1 0 1 0 1 1:64\n2 0 1 0 1 1:1\n"
LONG_GIVEN = b"""sincronia 2
place 1 2 in 0 10977936408576 65 10
place 2 1 in 0 17179869184 64 1
bound 75
slack 0
cost 714
run 64 0
run 1 1
end
"""

# name, bytes of the trace `t`, of the weights `w` and of the order `r`, words, code, standard output, standard error
ORDER_ROWS = [
    ("three jobs in another order", THREE, None, b"3\n2\n1\n", GIVEN, 0, THREE_GIVEN, b""),
    ("a report of another order", THREE, None, THREE_GIVEN, ["check", "t", "r"], 0, b"yes bound 9 slack 1 cost 9\n", b""),
    ("the longer flow first", TWO, None, b"1\n2\n", GIVEN, 0, TWO_GIVEN, b""),
    ("blank lines, zeros and no last line feed", TWO, None, b"\n 01\t\r\n\n2", GIVEN, 0, TWO_GIVEN, b""),
    ("the order of the plan", TWO, None, b"2\n1\n", GIVEN, 0, TWO_TEXT, b""),
    ("an order with weights", LONG, b"2 10\n", b"1\n2\n", GIVEN + ["--weights", "w"], 0, LONG_GIVEN, b""),
    ("an order that is far from the best", LONG, b"2 10\n", LONG_GIVEN, ["check", "t", "r", "--weights", "w"], 1, b"no ratio 714 300\n", b""),
    ("an order of no coflow", b"2 0\n", None, b"", GIVEN, 0, b"sincronia 2\nbound 0\nslack 0\ncost 0\nend\n", b""),
    ("an order of a word", TWO, None, b"1\nx\n", GIVEN, 12, b"", b"sincronia: order: line 2 field 1\n"),
    ("two ids in a line", TWO, None, b"1 2\n", GIVEN, 12, b"", b"sincronia: order: line 1 field 2\n"),
    ("an id of no coflow", TWO, None, b"1\n\n9 1\n", GIVEN, 12, b"", b"sincronia: order: line 3 unknown id 9\n"),
    ("an id above 2^64 - 1", TWO, None, b"18446744073709551616\n", GIVEN, 12, b"", b"sincronia: order: line 1 unknown id 18446744073709551615\n"),
    ("an id twice", TWO, None, b"1\n1 2\n", GIVEN, 12, b"", b"sincronia: order: line 2 repeats id 1\n"),
    ("an order of a line too few", TWO, None, b"1\n", GIVEN, 12, b"", b"sincronia: order: have 1 lines, want 2\n"),
    ("an empty order", TWO, None, b"", GIVEN, 12, b"", b"sincronia: order: have 0 lines, want 2\n"),
    ("no order", TWO, None, None, GIVEN, 8, b"", READ_FAULT),
    ("an order of 2^26 + 1 bytes", TWO, None, b"1" * (2**26 + 1), GIVEN, 7, b"", b"sincronia: limit: text 67108865\n"),
    ("a bad order of too many units", TOO_MANY, None, b"x", GIVEN, 7, b"", b"sincronia: limit: units 1099511627777\n"),
    ("a bad order and a bad trace", b"", None, b"x", GIVEN, 3, b"", b"sincronia: trace: bad header\n"),
    ("a bad order and bad weights", TWO, b"9 1", b"x", GIVEN + ["--weights", "w"], 4, b"", b"sincronia: weights: line 1 unknown id 9\n"),
    ("an order without a name", TWO, None, None, ["serve", "t"], 2, b"", USAGE),
    ("an order and a name", TWO, None, b"1\n2\n", GIVEN + ["r"], 2, b"", USAGE),
]
