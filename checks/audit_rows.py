"""Printed journals and the lines that their audits print, which were worked by hand, for checks/plain_audit.py. They are of a coflow of 3 units with id 1 and one of 1 unit with id 2, both from
port 0 to port 1, of weight 1 where nothing else is said. A `/` stands for a line end."""

ENTRIES = ("entry 1 1 register 1 joined/entry 2 1 register 2 joined/entry 3 1 publish version 1/entry 4 0 open 4 opened 1 1 1/entry 5 0 close closed 1/entry 6 0 open 4 opened 2 3 1/"
           "entry 7 0 close closed 2/entry 8 0 open 4 nothing/")
SERVED = ENTRIES + "order 1 2 1/pull 1 4 2 1 1/run 1 1/run 3 0/"
# Both are ordered, the long one gets weight 5, and both are ordered anew.
REWEIGHED = "entry 1 1 register 1 joined/entry 2 2 register 2 joined/entry 3 1 publish version 1/entry 4 2 reweigh 1 5 weighed 1/entry 5 1 publish version 2/"

# an edit of the text, and the line
ROWS = [
    (None, "yes entries 8 versions 1 slots 4"),
    (("register 2", "register 3"), "no id 2"),
    (("close closed 2", "close closed 3"), "no entry 7"),
    (("entry 7 0 close closed 2/entry 8 0 open 4 nothing/", ""), "no close 2"),
    (("order 1 2 1", "order 1 1 2"), "no order 1 1"),
    (("order 1 2 1/", "order 1 2/"), "no order 1 2"),
    (("order 1 2 1/", ""), "no order 1 1"),
    (("order 1 2 1/", "order 1 2 1/order 2 2 1/"), "no order 2 1"),
    (("pull 1 4 2 1 1", "pull 1 4 2 1 2"), "no pull 1 4 2 1"),
    (("pull 1 4 2 1 1", "pull 1 4 2 2 1"), "no pull 1 4 1 0"),
    (("pull 1 4 2 1 1", "pull 1 4 2 2 0"), "no version 1 4"),
    (("pull 1 4 2 1 1", "pull 1 4 3 1 0"), "no version 1 4"),
    (("pull 1 4 2 1 1/", "pull 1 4 2 1 1/pull 1 5 2 0 0/"), "no version 1 5"),
    (("pull 1 4 2 1 1/", "pull 1 4 2 1 1/pull 2 5 2 0 0/"), "yes entries 8 versions 1 slots 4"),
    (("run 3 0", "run 4 0"), "no run 5"),
    (("run 3 0", "run 2 0"), "no run 4"),
    (("run 1 1/run 3 0", "run 1 0/run 3 1"), "no run 1"),
    ((SERVED, ""), "yes entries 0 versions 0 slots 0"),
]

# the opening weights, the text, and the line. The first reason counts, so what is wrong behind it is not told
TEXTS = [
    # Another client may be told an earlier version, and any client the version 0.
    ((1, 1), ENTRIES + "order 1 2 1/pull 1 4 1 1 2/pull 2 5 2 0 0/pull 2 6 1 1 2/run 1 1/run 3 0/", "yes entries 8 versions 1 slots 4"),
    ((1, 1), REWEIGHED + "order 1 2 1/order 2 1 2/pull 1 7 1 1 2/pull 1 8 1 2 1/pull 2 9 2 1 1/", "yes entries 5 versions 2 slots 0"),
    # An id that is no coflow's comes before each other reason, and a reply before what comes behind the entries. A run that is open at the end comes before what it lacks.
    ((1, 1), "entry 1 1 register 1 already/entry 2 1 register 9 joined/entry 3 1 pull 8 unranked 0/order 1 9/", "no id 2"),
    ((1, 1), "entry 1 1 register 1 joined/entry 2 1 register 1 joined/entry 3 1 publish version 2/order 1 9/", "no entry 2"),
    ((1, 1), "entry 1 1 register 1 joined/entry 2 0 open 4 opened 1 4 1/", "no entry 2"),
    ((1, 1), "entry 1 0 close closed 1/run 1/", "no entry 1"),
    ((1, 1), ENTRIES.split("entry 7")[0] + "run 4 0/", "no close 2"),
    # Where the long coflow begins with weight 5 it is served first.
    ((5, 1), ENTRIES + "order 1 2 1/run 1 1/run 3 0/", "no entry 4"),
    # Orders that differ, end early or late, lack a version or have one more. What comes behind them is wrong too.
    ((1, 1), ENTRIES + "order 1 1 2/pull 1 4 2 1 2/run 4 0/", "no order 1 1"),
    ((1, 1), ENTRIES + "order 1 2/run 4 0/", "no order 1 2"),
    ((1, 1), ENTRIES + "order 1 2 1 1/", "no order 1 3"),
    ((1, 1), ENTRIES + "run 1 1/run 3 0/", "no order 1 1"),
    ((1, 1), ENTRIES + "order 1 2 1/order 2 2 1/pull 1 4 2 1 2/", "no order 2 1"),
    ((1, 1), REWEIGHED + "order 1 2 1/order 2 2 1/", "no order 2 1"),
    # A rank comes before a version, also where a version was not made or an id is no coflow's; and both come before the runs.
    ((1, 1), ENTRIES + "order 1 2 1/pull 1 4 2 1 2/", "no pull 1 4 2 1"),
    ((1, 1), ENTRIES + "order 1 2 1/pull 1 4 9 2 0/pull 1 5 2 2 1/", "no pull 1 5 1 0"),
    ((1, 1), ENTRIES + "order 1 2 1/pull 3 4 9 1 1/", "no pull 3 4 1 0"),
    ((1, 1), ENTRIES + "order 1 2 1/pull 1 4 2 0 1/", "no pull 1 4 1 0"),
    ((1, 1), ENTRIES + "order 1 2 1/pull 1 4 2 2 0/", "no version 1 4"),
    ((1, 1), ENTRIES + "order 1 2 1/pull 1 4 2 1 1/pull 3 5 9 1 0/", "no version 3 5"),
    ((1, 1), ENTRIES + "order 1 2 1/pull 1 4 2 1 1/pull 1 5 2 0 0/", "no version 1 5"),
    # Runs that end late or early, or that are as long as those that were opened and have other flows.
    ((1, 1), ENTRIES + "order 1 2 1/pull 1 4 2 1 1/run 1 1/run 4 0/", "no run 5"),
    ((1, 1), ENTRIES + "order 1 2 1/run 1 1/run 2 0/run 1/", "no run 4"),
    ((1, 1), ENTRIES + "order 1 2 1/", "no run 1"),
    ((1, 1), REWEIGHED + "order 1 2 1/order 2 1 2/run 1/", "no run 1"),
]
