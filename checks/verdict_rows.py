"""Reports, and the lines that `check` prints of them, which were worked by hand, for checks/program_runs.py. A `/` stands for a line end. What is looked at later than what the line tells is wrong
too, so the order of the reasons is seen."""

TWO = "2 2/1 0 1 0 1 1:3/2 0 1 0 1 1:1/"
# the places, the totals and the runs of a right report of it
RIGHT = ("place 1 2 in 0 733007751851 1/place 2 1 in 0 366503875925 4/", "bound 5/slack 1/cost 5/", "run 1 1/run 3 0/")

# places, totals and runs of a report, where None are those of the right one, and the line. At the end are prices that charge nothing, a price that is free since its front has no load, and as many
# idle slots as there may be.
EDITS = [
    (None, None, None, "yes bound 5 slack 1 cost 5"),
    (None, "bound 4/slack 1/cost 5/", None, "yes bound 4 slack 1 cost 5"),
    (None, "bound 1/slack 1/cost 5/", None, "yes bound 1 slack 1 cost 5"),
    (None, "bound 6/slack 2/cost 6/", None, "no bound 6 5"),
    (None, "bound 5/slack 2/cost 6/", None, "no slack 2 1"),
    (None, "bound 0/slack 1/cost 6/", None, "no cost 6 5"),
    (None, "bound 0/slack 1/cost 5/", None, "no ratio 5 1"),
    ("", "bound 9/slack 9/cost 9/", "run 1 9/", "no order 1"),
    ("place 1 0 in 9 0 0/", "bound 9/slack 9/cost 9/", "run 1 9/", "no order 1"),
    ("place 1 2 in 9 0 0/", "bound 9/slack 9/cost 9/", "run 1 9/", "no order 2"),
    ("place 1 1 in 9 0 0/place 2 1 in 9 0 0/", "bound 9/slack 9/cost 9/", "run 1 9/", "no order 2"),
    ("place 1 1 in 9 0 0/place 2 4294967295 in 9 0 0/", "bound 9/slack 9/cost 9/", "run 1 9/", "no order 2"),
    ("place 1 1 in 9 0 0/place 2 2 in 9 0 0/place 3 1 in 9 0 0/", "bound 9/slack 9/cost 9/", "run 1 9/", "no order 3"),
    ("place 1 1 in 2 0 0/place 2 2 in 3 0 0/", "bound 9/slack 9/cost 9/", "run 1 9/", "no port 2 3"),
    ("place 1 2 out 3 0 0/place 2 1 in 4294967295 0 0/", "bound 9/slack 9/cost 9/", "run 1 9/", "no port 1 3"),
    ("place 1 2 in 0 733007751851 1/place 2 1 in 0 366503875926 4/", "bound 9/slack 9/cost 9/", "run 1 9/", "no infeasible 1"),
    ("place 1 2 in 0 733007751852 1/place 2 1 in 0 366503875925 4/", "bound 9/slack 9/cost 9/", "run 1 9/", "no infeasible 2"),
    ("place 1 1 out 1 0 0/place 2 2 out 1 340282366920938463463374607431768211455 0/", "bound 9/slack 9/cost 9/", "run 1 9/", "no infeasible 1"),
    (None, "bound 5/slack 1/cost 6/", "run 2 0 1/run 1 2 3/run 1 9/", "no flow 3 2"),
    (None, "bound 5/slack 1/cost 6/", "run 1 1/run 3 0 1/", "no clash 2 in 0"),
    (None, "bound 5/slack 1/cost 6/", "run 1 1/run 2 0/", "no units 0 2 3"),
    (None, "bound 5/slack 1/cost 6/", "run 3 0/", "no units 1 0 1"),
    (None, "bound 5/slack 1/cost 6/", "", "no units 0 0 3"),
    (None, "bound 5/slack 1/cost 6/", "run 3 0/run 1 1/", "no done 1 4 3"),
    (None, "bound 5/slack 1/cost 6/", "run 1 1/run 1/run 3 0/run 7/", "no done 1 4 5"),
    ("place 1 2 in 0 0 1/place 2 1 in 0 0 4/", "bound 0/slack 10/cost 5/", None, "yes bound 0 slack 10 cost 5"),
    ("place 1 2 in 2 340282366920938463463374607431768211455 1/place 2 1 in 0 366503875925 4/", None, None, "yes bound 5 slack 1 cost 5"),
    ("place 1 2 in 0 733007751851 2/place 2 1 in 0 366503875925 6/", "bound 5/slack 1/cost 8/", "run 1/run 1 1/run 1/run 3 0/run 2199023255545/", "yes bound 5 slack 1 cost 8"),
    ("place 1 2 in 0 733007751851 2199023255548/place 2 1 in 0 366503875925 2199023255551/", "bound 5/slack 1/cost 4398046511099/", "run 2199023255547/run 1 1/run 3 0/", "no ratio 4398046511099 21"),
]

# a report of two coflows, of which the first has weight 5
WEIGHTED = "2/place 1 1 in 0 733007751850 3 5/place 2 2 in 0 1099511627776 4 1/bound 19/slack 1/cost 19/run 3 0/run 1 1/"

# a trace, weights, what stands between the first word and the last line of a report, and the line. A flow meets another at its egress; a coflow pays too much at a port where the last place has no load;
# the slack is more than 2 where a port has more than 2^20 units.
OTHERS = [
    (TWO, (5, 1), WEIGHTED, "yes bound 19 slack 1 cost 19"),
    (TWO, (5, 1), "2/place 1 2 in 0 0 4 4294967296/place 2 1 in 0 0 3 4294967296/bound 19/slack 1/cost 19/run 3 0/run 1 1/", "no weight 1 4294967296 5"),
    (TWO, (1, 1), WEIGHTED, "no weight 1 5 1"),
    ("2 2/1 0 1 0 1 1:1/2 0 1 2 1 1:1/", (1, 1), "1/place 1 1 out 1 0 1/place 2 2 out 1 0 1/bound 0/slack 6/cost 2/run 1 0 1/", "no clash 1 out 1"),
    ("2 2/1 0 1 0 1 1:1/2 0 1 2 1 0:1/", (1, 1), "1/place 1 1 in 0 1099511627777 1/place 2 2 in 2 0 1/bound 0/slack 0/cost 2/run 1 0 1/", "no infeasible 1"),
    ("2 3/3 0 1 0 0/4 0 1 0 1 1:2/5 0 1 2 0/", (1, 1, 1), "1/place 1 5 out 2 340282366920938463463374607431768211455 0/place 2 3 in 1 1 0/place 3 4 in 0 549755813888 2/bound 2/slack 0/cost 2/run 2 0/", "yes bound 2 slack 0 cost 2"),
    ("1 1/1 0 1 0 1 0:1048577/", (1048576,), "1/place 1 1 in 0 1099510579200 1048577/bound 1099512676351/slack 3/cost 1099512676352/run 1048577 0/", "yes bound 1099512676351 slack 3 cost 1099512676352"),
    ("1024 1/1 0 1 1024 1 1024:1099511627776/", (4294967296,), "1/place 1 1 in 1024 4294967296 1099511627776/bound 4722366482869645213696/slack 0/cost 4722366482869645213696/run 1099511627776 0/", "yes bound 4722366482869645213696 slack 0 cost 4722366482869645213696"),
    ("2 0/", (), "1/bound 0/slack 0/cost 0/", "yes bound 0 slack 0 cost 0"),
    ("2 0/", (), "1/place 1 0 in 0 0 0/bound 0/slack 0/cost 0/", "no order 1"),
]

# A coflow of 6 units, and one of 1 unit that arrives two slots later. They share both ports.
LATE = "2 2/1 0 1 0 1 1:6/2 16 1 0 1 1:1/"
# completions, cost, certificate, total and runs of a right online run of it
RIGHT_ONLINE = ("done 1 7/done 2 5/", "cost 12/", "release 1 2 in 0 0 916259689814/release 2 1 in 0 183251937962 4/", "total 10/", "run 4 0/run 1 1/run 2 0/")

# the same parts of an online run, where None are those of the right one, and the line
ONLINE_EDITS = [
    # A total may be below that of the certificate, and the short coflow may be served in the slot behind its arrival.
    (None, None, None, None, None, "yes total 10 cost 12"),
    (None, None, None, "total 9/", None, "yes total 9 cost 12"),
    (None, None, None, "total 0/", None, "yes total 0 cost 12"),
    ("done 1 7/done 2 3/", "cost 10/", None, None, "run 2 0/run 1 1/run 4 0/", "yes total 10 cost 10"),
    # The certificate spends all that both coflows have, so one part more is too much.
    ("", "cost 99/", "", "total 99/", "run 1 9/", "no order 1"),
    ("", "cost 99/", "release 1 3 in 9 0 0/", "total 99/", "run 1 9/", "no order 1"),
    ("", "cost 99/", "release 1 2 in 9 0 0/", "total 99/", "run 1 9/", "no order 2"),
    ("", "cost 99/", "release 1 2 in 9 0 0/release 2 2 in 9 0 0/", "total 99/", "run 1 9/", "no order 2"),
    ("", "cost 99/", "release 1 2 in 9 0 0/release 2 1 in 9 0 0/release 3 1 in 9 0 0/", "total 99/", "run 1 9/", "no order 3"),
    ("", "cost 99/", "release 1 2 in 2 0 0/release 2 1 in 3 0 340282366920938463463374607431768211455/", "total 99/", "run 1 9/", "no port 2 3"),
    ("", "cost 99/", "release 1 2 in 0 0 916259689815/release 2 1 in 0 183251937962 5/", "total 99/", "run 1 9/", "no infeasible 1"),
    ("", "cost 99/", "release 1 2 in 0 0 916259689815/release 2 1 in 0 183251937962 4/", "total 99/", "run 1 9/", "no infeasible 2"),
    ("", "cost 99/", "release 1 2 in 0 0 340282366920938463463374607431768211455/release 2 1 in 0 183251937962 4/", "total 99/", "run 1 9/", "no infeasible 2"),
    ("", "cost 99/", None, "total 99/", "run 1 9/", "no total 99 10"),
    (None, None, None, "total 11/", None, "no total 11 10"),
    # The short coflow arrives at time 2, so the first slot that may hold it is the third.
    ("", "cost 99/", None, None, "run 1 1/run 6 0/run 1 2/", "no flow 8 2"),
    ("", "cost 99/", None, None, "run 1 0 1/run 4 0/", "no clash 1 in 0"),
    ("", "cost 99/", None, None, "run 1 1/run 5 0/", "no units 0 5 6"),
    ("", "cost 99/", None, None, "run 1 1/run 6 0/", "no early 1 2"),
    ("", "cost 99/", None, None, "run 1 0/run 1 1/run 5 0/", "no early 2 2"),
    ("", "cost 99/", None, None, "run 2 0/run 1 1/run 4 0/", "no listed 1"),
    # The lines of the completions go by coflow.
    ("", "cost 99/", None, None, None, "no listed 1"),
    ("done 1 9/", "cost 99/", None, None, None, "no listed 2"),
    ("done 2 9/done 1 9/", "cost 99/", None, None, None, "no listed 1"),
    ("done 1 9/done 1 9/", "cost 99/", None, None, None, "no listed 2"),
    ("done 1 9/done 2 9/done 2 9/", "cost 99/", None, None, None, "no listed 3"),
    ("done 1 8/done 2 4/", "cost 99/", None, None, None, "no done 1 8 7"),
    ("done 1 7/done 2 4/", "cost 99/", None, None, None, "no done 2 4 5"),
    (None, "cost 99/", None, None, None, "no cost 99 12"),
    (None, "cost 11/", None, None, None, "no cost 11 12"),
]

# a trace, weights, and the lines of the certificate and its total in the text of its online run. Both coflows lose what they pay for load. A coflow that arrives later than the load of the port could be
# served pays for its earliest end alone, and one without units pays for nothing.
CERTIFICATES = [
    ("2 2/1 0 1 0 1 1:6/2 16 1 0 1 1:1/", (1, 1), "release 1 2 in 0 0 916259689814/release 2 1 in 0 183251937962 4/total 10/"),
    ("2 2/1 0 1 0 1 1:6/2 16 1 0 1 1:1/", (5, 1), "release 1 2 in 0 0 183251937963/release 2 1 in 0 916259689813 2/total 37/"),
    # the first arrival of both counts twice their load
    ("2 2/1 8 1 0 1 1:6/2 24 1 0 1 1:1/", (1, 1), "release 1 2 in 0 0 916259689814/release 2 1 in 0 183251937962 4/total 12/"),
    # 7 units can be served up to time 7, and not up to time 8
    ("2 2/1 0 1 0 1 1:6/2 56 1 0 1 1:1/", (1, 1), "release 1 2 in 0 0 916259689814/release 2 1 in 0 183251937962 4/total 14/"),
    ("2 2/1 0 1 0 1 1:6/2 64 1 0 1 1:1/", (1, 1), "release 1 1 in 0 183251937962 4/release 2 2 in 0 0 1099511627776/total 15/"),
    # of two that arrive at one time the greater number has the later place
    ("2 2/1 40 1 0 1 1:1/2 40 1 0 1 1:1/", (1, 1), "release 1 1 in 0 0 1099511627776/release 2 2 in 0 0 1099511627776/total 12/"),
    ("2 2/1 0 1 0 1 1:2/2 80 1 0 0/", (1, 1), "release 1 1 in 0 549755813888 0/release 2 2 in 0 0 1099511627776/total 2/"),
    ("2 2/1 0 1 0 1 1:2/2 0 1 0 0/", (1, 1), "release 1 2 in 0 0 1099511627776/release 2 1 in 0 549755813888 0/total 2/"),
    # two ingress ports of 2 units and of 1, and an egress port of 3
    ("2 2/1 0 1 0 1 1:2/2 0 1 1 1 1:1/", (1, 1), "release 1 2 in 1 549755813888 0/release 2 1 out 1 549755813888 0/total 4/"),
]
