"""What the built program prints of files: rows for checks/program_runs.py and its kin, whose bytes were worked out by hand."""

TWO = b"2 2\n1 0 1 0 1 1:3\n2 0 1 0 1 1:1\n"
TWO_TEXT = b"""sincronia 2
place 1 2 in 0 733007751851 1 1
place 2 1 in 0 366503875925 4 1
bound 5
slack 1
cost 5
run 1 1
run 3 0
end
"""
# Each of two coflows has a unit from both ingress ports to one egress port.
CROSSED = b"1 2\n1 0 2 0 1 1 0:2\n2 0 2 0 1 1 1:2\n"
CROSSED_TEXT = b"""sincronia 2
place 1 1 out 0 0 2 1
place 2 2 in 0 1099511627776 2 1
bound 3
slack 0
cost 4
run 1 0 3
run 1 1 2
end
"""
USAGE = b"sincronia: usage: sincronia COMMAND FIRST [SECOND] [options]\n"
READ_FAULT = b"sincronia: read fault\n"
WRITE_FAULT = b"sincronia: write fault\n"
WEIGHTED = ["plan", "t", "--weights", "w"]

# name, bytes of the files `t` and `w` (None: there is no such file), words, code, standard output, standard error
ROWS = [
    ("two flows", TWO, None, ["plan", "t"], 0, TWO_TEXT, b""),
    ("no coflow", b"2 0\n", None, ["plan", "t"], 0, b"sincronia 2\nbound 0\nslack 0\ncost 0\nend\n", b""),
    ("one coflow", b"1 1\n7 0 1 0 1 1:1\n", None, ["plan", "t"], 0,
     b"sincronia 2\nplace 1 7 in 0 1099511627776 1 1\nbound 1\nslack 0\ncost 1\nrun 1 0\nend\n", b""),
    ("from port 1 to port 0", b"1 1\n1 0 1 1 1 0:1\n", None, ["plan", "t"], 0,
     b"sincronia 2\nplace 1 1 in 1 1099511627776 1 1\nbound 1\nslack 0\ncost 1\nrun 1 0\nend\n", b""),
    ("only the first mapper sends", b"1 1\n7 0 2 0 1 1 1:1\n", None, ["plan", "t"], 0,
     b"sincronia 2\nplace 1 7 in 0 1099511627776 1 1\nbound 1\nslack 0\ncost 1\nrun 1 0\nend\n", b""),
    ("a small size is a unit", b"1 1\n7 0 1 0 1 1:0.000001\n", None, ["plan", "t"], 0,
     b"sincronia 2\nplace 1 7 in 0 1099511627776 1 1\nbound 1\nslack 0\ncost 1\nrun 1 0\nend\n", b""),
    ("a coflow of no units", b"1 2\n3 0 1 0 1 1:0\n4 0 1 0 1 1:2\n", None, ["plan", "t"], 0,
     b"sincronia 2\nplace 1 3 in 0 0 0 1\nplace 2 4 in 0 549755813888 2 1\nbound 2\nslack 0\ncost 2\nrun 2 0\nend\n", b""),
    ("two mappers at one port", b"1 1\n1 0 2 0 0 1 1:4\n", None, ["plan", "t"], 0,
     b"sincronia 2\nplace 1 1 in 0 274877906944 4 1\nbound 4\nslack 0\ncost 4\nrun 4 0\nend\n", b""),
    ("three coflows", b"150 3\n1 0 2 20 38 1 93:1.0\n2 120 1 7 2 93:4.5 7:2\n3 250 3 20 64 110 2 38:6.25 93:1\n", None, ["plan", "t"], 0,
     b"sincronia 2\nplace 1 1 in 20 1099511627776 1 1\nplace 2 3 out 38 157073089682 7 1\nplace 3 2 in 7 157073089682 8 1\nbound 15\nslack 1\ncost 16\n"
     b"run 1 0 1 5\nrun 1 1 3\nrun 2 2 3\nrun 1 4 5\nrun 2 2 6\nrun 1 2\nend\n", b""),
    ("coflows that cross", CROSSED, None, ["plan", "t"], 0, CROSSED_TEXT, b""),
    ("a port of 2^40 units", b"1 1\n1 0 1 0 1 1:1099511627776\n", None, ["plan", "t"], 0,
     b"sincronia 2\nplace 1 1 in 0 1 1099511627776 1\nbound 1099511627776\nslack 0\ncost 1099511627776\nrun 1099511627776 0\nend\n", b""),
    ("a weight of 2^20 and as many units", b"1 1\n1 0 1 0 1 1:1048576\n", b"1 1048576\n", WEIGHTED, 0,
     b"sincronia 2\nplace 1 1 in 0 1099511627776 1048576 1048576\nbound 1099511627776\nslack 0\ncost 1099511627776\nrun 1048576 0\nend\n", b""),
    ("other line ends and blanks", b"2 2\r\n1  0 1\t0 1 1:3\r\n\r\n2 0 1 0  1 1:1", None, ["plan", "t"], 0, TWO_TEXT, b""),
    ("a weight of 2^20", b"1 1\n1 0 1 0 1 1:1048577\n", b"1 1048576", WEIGHTED, 0,
     b"sincronia 2\nplace 1 1 in 0 1099510579200 1048577 1048576\nbound 1099512676351\nslack 3\ncost 1099512676352\nrun 1048577 0\nend\n", b""),
    ("the greatest weight", b"1 1\n1 0 1 0 1 1:1099511627776\n", b"1 4294967296\n", WEIGHTED, 0,
     b"sincronia 2\nplace 1 1 in 0 4294967296 1099511627776 4294967296\nbound 4722366482869645213696\nslack 0\ncost 4722366482869645213696\n"
     b"run 1099511627776 0\nend\n", b""),
    ("carriage returns", TWO.replace(b"\n", b"\r\n"), None, ["plan", "t"], 0, TWO_TEXT, b""),
    ("no last line feed", TWO[:-1], None, ["plan", "t"], 0, TWO_TEXT, b""),
    ("blank lines", b"\n \n" + TWO.replace(b"\n", b"\n\t\n"), None, ["plan", "t"], 0, TWO_TEXT, b""),
    ("two spaces", TWO.replace(b" ", b"  "), None, ["plan", "t"], 0, TWO_TEXT, b""),
    ("leading zeros", TWO.replace(b"1:3", b"0001:03.0"), None, ["plan", "t"], 0, TWO_TEXT, b""),
    ("an arrival", TWO.replace(b"1 0 1", b"1 16 1", 1), None, ["plan", "t"], 0, TWO_TEXT, b""),
    ("no megabytes", b"1 1\n1 0 1 0 1 1:0\n", None, ["plan", "t"], 0,
     b"sincronia 2\nplace 1 1 in 0 0 0 1\nbound 0\nslack 0\ncost 0\nend\n", b""),
    ("weights", TWO, b"1 5\n2 1\n", WEIGHTED, 0,
     b"sincronia 2\nplace 1 1 in 0 733007751850 3 5\nplace 2 2 in 0 1099511627776 4 1\nbound 19\nslack 1\ncost 19\nrun 3 0\nrun 1 1\nend\n", b""),
    ("two megabytes to a unit", TWO, None, ["--unit=2", "plan", "t"], 0,
     b"sincronia 2\nplace 1 2 in 0 549755813888 1 1\nplace 2 1 in 0 549755813888 3 1\nbound 4\nslack 0\ncost 4\nrun 1 1\nrun 2 0\nend\n", b""),
    ("options that are not used", TWO, None, ["--agents", "64", "plan", "--epoch=1", "--run", "5", "t", "--slot-ms", "8", "--classes=64"], 0, TWO_TEXT, b""),
    ("one agent", CROSSED, None, ["plan", "t", "--agents", "1"], 0, CROSSED_TEXT, b""),
    ("four agents, as none are said", CROSSED, None, ["plan", "t"], 0, CROSSED_TEXT, b""),
    ("as many agents as there may be", CROSSED, None, ["plan", "t", "--agents=64"], 0, CROSSED_TEXT, b""),
    ("no agent", TWO, None, ["plan", "t", "--agents", "0"], 2, b"", USAGE),
    ("too many agents", TWO, None, ["plan", "t", "--agents", "65"], 2, b"", USAGE),
    ("empty file", b"", None, ["plan", "t"], 3, b"", b"sincronia: trace: bad header\n"),
    ("location above the ports", b"1 1\n1 0 1 0 1 2:1\n", None, ["plan", "t"], 3, b"", b"sincronia: trace: line 2 port 2 out of range\n"),
    ("repeated id", TWO.replace(b"\n2 0 1", b"\n1 0 1"), None, ["plan", "t"], 3, b"", b"sincronia: trace: line 3 repeats id 1\n"),
    ("a line too few", b"3 3\n1 0 1 0 1 1:1\n2 0 1 0 1 1:1\n", None, ["plan", "t"], 3, b"", b"sincronia: trace: have 2 lines, want 3\n"),
    ("a line too many", b"2 1\n1 0 1 0 1 1:3\n\n2 0 1 0 1 1:1\n", None, ["plan", "t"], 3, b"", b"sincronia: trace: extra line 4\n"),
    ("a mapper too few", b"3 1\n1 0 2 0\n", None, ["plan", "t"], 3, b"", b"sincronia: trace: line 2 field 5\n"),
    ("a size with an exponent", b"1 1\n1 0 1 0 1 1:1.0E-5\n", None, ["plan", "t"], 3, b"", b"sincronia: trace: line 2 field 6\n"),
    ("more than 1024 ports", b"1025 0\n", None, ["plan", "t"], 7, b"", b"sincronia: limit: ports 1025\n"),
    ("more than 4096 coflows", b"1 4097\n", None, ["plan", "t"], 7, b"", b"sincronia: limit: coflows 4097\n"),
    ("an arrival above 2^32 - 1", b"1 1\n1 4294967296 1 0 1 1:1\n", None, ["plan", "t"], 7, b"", b"sincronia: limit: arrival 4294967296\n"),
    ("no mapper", b"1 1\n1 0 0 1 1:1\n", None, ["plan", "t"], 7, b"", b"sincronia: limit: mappers 0\n"),
    ("more than 4096 reducers", b"1 1\n1 0 1 0 4097\n", None, ["plan", "t"], 7, b"", b"sincronia: limit: reducers 4097\n"),
    ("more than 2^40 megabytes", b"1 1\n1 0 1 0 1 1:1099511627776.5\n", None, ["plan", "t"], 7, b"", b"sincronia: limit: megabytes 1099511627777\n"),
    ("an id above 2^32 - 1", b"1 1\n4294967296 0 1 0 1 1:1\n", None, ["plan", "t"], 7, b"", b"sincronia: limit: id 4294967296\n"),
    ("more than 2^40 units", b"1 1\n1 0 1 0 2 1:1099511627776 1:1\n", None, ["plan", "t"], 7, b"", b"sincronia: limit: units 1099511627777\n"),
    ("2^26 bytes", TWO + b"\n" * (2**26 - len(TWO)), None, ["plan", "t"], 0, TWO_TEXT, b""),
    ("2^26 + 1 bytes", b"1" * (2**26 + 1), None, ["plan", "t"], 7, b"", b"sincronia: limit: text 67108865\n"),
    ("weights of 2^26 + 1 bytes", TWO, b"1" * (2**26 + 1), WEIGHTED, 7, b"", b"sincronia: limit: text 67108865\n"),
    ("a weight above 2^32", TWO, b"1 4294967297", WEIGHTED, 7, b"", b"sincronia: limit: weight 4294967297\n"),
    ("a weight of 0", TWO, b"1 0\n", WEIGHTED, 7, b"", b"sincronia: limit: weight 0\n"),
    ("a weight of no coflow", TWO, b"9 1\n", WEIGHTED, 4, b"", b"sincronia: weights: line 1 unknown id 9\n"),
    ("two weights of a coflow", TWO, b"1 2\n1 3\n", WEIGHTED, 4, b"", b"sincronia: weights: line 2 repeats id 1\n"),
    ("a weight that is missing", TWO, b"1\n", WEIGHTED, 4, b"", b"sincronia: weights: line 1 field 2\n"),
    ("no words", None, None, [], 2, b"", USAGE),
    ("no name", TWO, None, ["plan"], 2, b"", USAGE),
    ("four words", TWO, None, ["plan", "t", "t"], 2, b"", USAGE),
    ("empty name", TWO, None, ["plan", ""], 2, b"", USAGE),
    ("name with a dash", TWO, None, ["plan", "-x"], 2, b"", USAGE),
    ("another command", TWO, None, ["paln", "t"], 2, b"", USAGE),
    ("a unit of 0", TWO, None, ["plan", "t", "--unit", "0"], 2, b"", USAGE),
    ("an option twice", TWO, None, ["plan", "t", "--unit=1", "--unit", "1"], 2, b"", USAGE),
    ("an option that is not used, out of its range", TWO, None, ["plan", "t", "--classes", "65"], 2, b"", USAGE),
    ("a word that is not UTF-8", TWO, None, ["plan", b"t\xff"], 2, b"", USAGE),
    ("no such file", None, None, ["plan", "t"], 8, b"", READ_FAULT),
    ("no such weights", TWO, None, WEIGHTED, 8, b"", READ_FAULT),
    ("a bad trace and bad weights", b"", b"9 1", WEIGHTED, 3, b"", b"sincronia: trace: bad header\n"),
    ("a bad trace and no such weights", b"", None, WEIGHTED, 3, b"", b"sincronia: trace: bad header\n"),
    ("a folder as file", None, None, ["plan", "."], 8, b"", READ_FAULT),
]


REPORT = TWO_TEXT.replace(b"sincronia 2", b"sincronia 1").replace(b"51 1 1\n", b"51 1\n").replace(b"25 4 1\n", b"25 4\n")
CHECK = ["check", "t", "r"]

# name, bytes of the report `r` for the trace of two flows, words, code, standard output, standard error
CHECK_ROWS = [
    ("a right report", TWO_TEXT, CHECK, 0, b"yes bound 5 slack 1 cost 5\n", b""),
    ("a right report of version 1", REPORT, CHECK, 0, b"yes bound 5 slack 1 cost 5\n", b""),
    ("a stated bound below the real one", TWO_TEXT.replace(b"bound 5", b"bound 1"), CHECK, 0, b"yes bound 1 slack 1 cost 5\n", b""),
    ("a place twice", TWO_TEXT.replace(b"place 1 2", b"place 1 1"), CHECK, 1, b"no order 2\n", b""),
    ("a port out of range", TWO_TEXT.replace(b"1 2 in 0", b"1 2 in 3"), CHECK, 1, b"no port 1 3\n", b""),
    ("another weight", TWO_TEXT.replace(b" 4 1\n", b" 4 9\n"), CHECK, 1, b"no weight 1 9 1\n", b""),
    ("a price that is free where its front has no load", TWO_TEXT.replace(b"1 2 in 0 733007751851", b"1 2 out 0 %d" % (2**128 - 1)), CHECK, 0, b"yes bound 5 slack 1 cost 5\n", b""),
    ("a price too high", TWO_TEXT.replace(b"366503875925", b"366503875926"), CHECK, 1, b"no infeasible 1\n", b""),
    ("a bound too high", TWO_TEXT.replace(b"bound 5", b"bound 6"), CHECK, 1, b"no bound 6 5\n", b""),
    ("a slack too high", TWO_TEXT.replace(b"slack 1", b"slack 2"), CHECK, 1, b"no slack 2 1\n", b""),
    ("a flow that is not there", TWO_TEXT.replace(b"run 3 0", b"run 3 0 2"), CHECK, 1, b"no flow 2 2\n", b""),
    ("two flows of one port in a slot", TWO_TEXT.replace(b"run 3 0", b"run 3 0 1"), CHECK, 1, b"no clash 2 in 0\n", b""),
    ("a cost too high", TWO_TEXT.replace(b"cost 5", b"cost 6"), CHECK, 1, b"no cost 6 5\n", b""),
    ("a bound from which the cost is too far", TWO_TEXT.replace(b"bound 5", b"bound 0"), CHECK, 1, b"no ratio 5 1\n", b""),
    ("runs exchanged", TWO_TEXT.replace(b"run 1 1\nrun 3 0", b"run 3 0\nrun 1 1"), CHECK, 1, b"no done 1 4 3\n", b""),
    ("a run too short", TWO_TEXT.replace(b"run 3 0", b"run 2 0"), CHECK, 1, b"no units 0 2 3\n", b""),
    ("another unit", TWO_TEXT, CHECK + ["--unit", "2"], 1, b"no bound 5 3\n", b""),
    ("no last line", TWO_TEXT[:-4], CHECK, 5, b"", b"sincronia: report: line 9\n"),
    ("a leading zero", TWO_TEXT.replace(b"run 3 0", b"run 03 0"), CHECK, 5, b"", b"sincronia: report: line 8\n"),
    ("a report with carriage returns", TWO_TEXT.replace(b"\n", b"\r\n"), CHECK, 5, b"", b"sincronia: report: line 1\n"),
    ("a report behind its end", TWO_TEXT + b"\n", CHECK, 5, b"", b"sincronia: report: line 10\n"),
    ("an empty report", b"", CHECK, 5, b"", b"sincronia: report: line 1\n"),
    ("no report", None, CHECK, 8, b"", READ_FAULT),
    ("no second name", TWO_TEXT, ["check", "t"], 2, b"", USAGE),
    ("a second name too many", TWO_TEXT, ["plan", "t", "r"], 2, b"", USAGE),
    ("a seed that is no number", None, ["make", "x"], 2, b"", USAGE),
    ("three names", TWO_TEXT, ["check", "t", "r", "r"], 2, b"", USAGE),
    ("a seed and a name", None, ["make", "7", "t"], 2, b"", USAGE),
    ("a seed of 2^64", None, ["make", "18446744073709551616"], 2, b"", USAGE),
]

TOO_MANY = b"1 1\n1 0 1 0 2 1:1099511627776 1:1\n"

WEIGHED = b"""sincronia 2
place 1 1 in 0 733007751850 3 5
place 2 2 in 0 1099511627776 4 1
bound 19
slack 1
cost 19
run 3 0
run 1 1
end
"""

# name, bytes of the trace `t`, of the weights `w` and of the report `r`, words, code, standard output, standard error
WEIGHED_ROWS = [
    ("no trace and a bad report", None, None, b"", CHECK, 8, b"", READ_FAULT),
    ("bad weights and a bad report", TWO, b"9 1", b"", CHECK + ["--weights", "w"], 4, b"", b"sincronia: weights: line 1 unknown id 9\n"),
    ("no weights and a bad report", TWO, None, b"", CHECK + ["--weights", "w"], 8, b"", READ_FAULT),
    ("all files are bad", b"", b"9 1", b"", CHECK + ["--weights", "w"], 3, b"", b"sincronia: trace: bad header\n"),
    ("a report without end, of too many units", TOO_MANY, None, None, ["check", "t", "/dev/zero"], 7, b"", b"sincronia: limit: units 1099511627777\n"),
    ("stated weights", TWO, b"1 5\n2 1\n", WEIGHED, CHECK + ["--weights", "w"], 0, b"yes bound 19 slack 1 cost 19\n", b""),
    ("stated weights of no file", TWO, b"1 5\n2 1\n", WEIGHED, CHECK, 1, b"no weight 1 5 1\n", b""),
]

# name, bytes of the trace `t` and of the report `r`, words, code, standard output, standard error
TABLE_ROWS = [
    ("two flows of one egress port in a slot", b"2 2\n1 0 1 0 1 1:1\n2 0 1 2 1 1:1\n",
     b"sincronia 2\nplace 1 1 out 1 0 1 1\nplace 2 2 out 1 0 1 1\nbound 0\nslack 6\ncost 2\nrun 1 0 1\nend\n", CHECK, 1, b"no clash 1 out 1\n", b""),
    ("a bad report of too many units", TOO_MANY, b"", CHECK, 7, b"", b"sincronia: limit: units 1099511627777\n"),
    ("no report of too many units", TOO_MANY, None, CHECK, 7, b"", b"sincronia: limit: units 1099511627777\n"),
]


# A coflow of 6 units, and one of 1 unit that arrives 16 milliseconds later, which are two slots of 8. They share both ports, and an order is published each four slots.
LATE = b"2 2\n1 0 1 0 1 1:6\n2 16 1 0 1 1:1\n"
ONLINE = b"""sincronia online 2
epoch 0
place 1 1 in 0 183251937962
bound 6
epoch 4
place 1 2 in 0 549755813888
place 2 1 in 0 549755813888
bound 4
done 1 7
done 2 5
cost 12
release 1 2 in 0 0 916259689814
release 2 1 in 0 183251937962 4
total 10
run 4 0
run 1 1
run 2 0
end
"""

# rows as above
ONLINE_ROWS = [
    ("a right online run", LATE, ONLINE, CHECK, 0, b"yes total 10 cost 12\n", b""),
    ("a total below the real one", LATE, ONLINE.replace(b"total 10", b"total 9"), CHECK, 0, b"yes total 9 cost 12\n", b""),
    ("a total too high", LATE, ONLINE.replace(b"total 10", b"total 11"), CHECK, 1, b"no total 11 10\n", b""),
    ("publishings that are wrong", LATE, ONLINE.replace(b"bound 4", b"bound 99").replace(b"1 2 in 0 549755813888", b"1 9 in 9 0"), CHECK, 0, b"yes total 10 cost 12\n", b""),
    ("an online run of no coflow", b"2 0\n", b"sincronia online 2\ncost 0\ntotal 0\nend\n", CHECK, 0, b"yes total 0 cost 0\n", b""),
    ("slots of 4 milliseconds", LATE, ONLINE, CHECK + ["--slot-ms", "4"], 0, b"yes total 10 cost 12\n", b""),
    ("slots of 2 milliseconds", LATE, ONLINE, CHECK + ["--slot-ms", "2"], 1, b"no early 5 2\n", b""),
    ("a run before an arrival", LATE, ONLINE.replace(b"run 4 0\nrun 1 1\nrun 2 0", b"run 1 0\nrun 1 1\nrun 5 0"), CHECK, 1, b"no early 2 2\n", b""),
    ("a release twice", LATE, ONLINE.replace(b"release 1 2", b"release 1 1"), CHECK, 1, b"no order 2\n", b""),
    ("a release at a port out of range", LATE, ONLINE.replace(b"release 1 2 in 0", b"release 1 2 in 3"), CHECK, 1, b"no port 1 3\n", b""),
    ("a run of a flow that is not there", LATE, ONLINE.replace(b"run 1 1", b"run 1 2"), CHECK, 1, b"no flow 5 2\n", b""),
    ("both flows of a port in a slot of an online run", LATE, ONLINE.replace(b"run 1 1", b"run 1 0 1"), CHECK, 1, b"no clash 5 in 0\n", b""),
    ("an online run that ends a slot early", LATE, ONLINE.replace(b"run 2 0", b"run 1 0"), CHECK, 1, b"no units 0 5 6\n", b""),
    ("a z too high", LATE, ONLINE.replace(b"183251937962 4", b"183251937962 5"), CHECK, 1, b"no infeasible 1\n", b""),
    ("a completion too many", LATE, ONLINE.replace(b"done 2 5\n", b"done 2 5\ndone 2 5\n"), CHECK, 1, b"no listed 3\n", b""),
    ("another completion", LATE, ONLINE.replace(b"done 2 5", b"done 2 6"), CHECK, 1, b"no done 2 6 5\n", b""),
    ("another cost", LATE, ONLINE.replace(b"cost 12", b"cost 13"), CHECK, 1, b"no cost 13 12\n", b""),
    ("two faults of an online run", LATE, ONLINE.replace(b"cost 12", b"cost 13").replace(b"total 10", b"total 11"), CHECK, 1, b"no total 11 10\n", b""),
    ("a publishing that comes twice", LATE, ONLINE.replace(b"epoch 4", b"epoch 0"), CHECK, 5, b"", b"sincronia: report: line 5\n"),
    ("an online run without its last line", LATE, ONLINE[:-4], CHECK, 5, b"", b"sincronia: report: line 18\n"),
    ("an online run of version 1", LATE, ONLINE.replace(b"online 2", b"online 1"), CHECK, 5, b"", b"sincronia: report: line 1\n"),
    ("an online run with carriage returns", LATE, ONLINE.replace(b"\n", b"\r\n"), CHECK, 5, b"", b"sincronia: report: line 1\n"),
    ("a report of a plan behind the line of an online run", TWO, b"sincronia online 2\n" + TWO_TEXT, CHECK, 5, b"", b"sincronia: report: line 2\n"),
]

# Coflow 1 owes nothing from slot 1 on, and leaves at the publishing of time 4. Coflow 2 has weight 3 and is served from slot 3 on, and coflow 3 has weight 2 and arrives at time 10: slots 2
# and 7 to 10 are idle. Of the release lines the last one cannot charge the port: coflow 3 arrives later than the 6 units of all three take.
IDLE = b"1 3\n1 0 1 0 1 1:1\n2 16 1 0 1 1:4\n3 80 1 0 1 1:1\n"
IDLE_ONLINE = b"""sincronia online 2
epoch 0
place 1 1 in 0 1099511627776
bound 1
epoch 4
place 1 2 in 0 1649267441664
bound 6
done 1 1
done 2 6
done 3 11
cost 41
release 1 1 in 0 274877906944 0
release 2 2 in 0 824633720832 0
release 3 3 in 0 0 2199023255552
total 38
run 1 0
run 1
run 4 1
run 4
run 1 2
end
"""
# A unit takes two megabytes: coflow 1 has 3 units then, and coflow 2 one unit from time 2 on.
HALF_ONLINE = b"""sincronia online 2
epoch 0
place 1 1 in 0 366503875925
bound 3
done 1 3
done 2 4
cost 7
release 1 2 in 0 0 733007751851
release 2 1 in 0 366503875925 1
total 7
run 3 0
run 1 1
end
"""
SERVE = ["online", "t", "--epoch", "4"]


def many_online(units):
    """The text of a coflow of so many units whose order is published in each slot. All that is left is served in order, so the bound is what is left."""
    epochs = [b"epoch %d\nplace 1 1 in 0 %d\nbound %d\n" % (units - left, 2**40 // left, left) for left in range(units, 0, -1)]
    price, rest = divmod(2**40, units)
    totals = b"done 1 %d\ncost %d\nrelease 1 1 in 0 %d %d\ntotal %d\nrun %d 0\nend\n" % (units, units, price, rest, units, units)
    return b"sincronia online 2\n" + b"".join(epochs) + totals


# name, bytes of the trace `t` and of the weights `w`, words, code, standard output, standard error
SERVED_ROWS = [
    ("a coflow that comes late", LATE, None, SERVE, 0, ONLINE, b""),
    ("a coflow that comes late, by one agent", LATE, None, SERVE + ["--agents", "1"], 0, ONLINE, b""),
    ("a coflow that comes late, by 64 agents", LATE, None, ["--agents=64"] + SERVE, 0, ONLINE, b""),
    ("a coflow that comes late, in slots of 4 milliseconds", LATE.replace(b"16", b"7"), None, SERVE + ["--slot-ms", "4"], 0, ONLINE, b""),
    ("a coflow that comes late, in units of 2 megabytes", LATE, None, SERVE + ["--unit", "2"], 0, HALF_ONLINE, b""),
    ("idle slots, a coflow that leaves, and weights", IDLE, b"2 3\n3 2\n", SERVE + ["--weights", "w"], 0, IDLE_ONLINE, b""),
    ("an online run of no coflow is served", b"2 0\n", None, ["online", "t"], 0, b"sincronia online 2\ncost 0\ntotal 0\nend\n", b""),
    ("as many publishings as there may be", b"1 1\n1 0 1 0 1 1:8192\n", None, ["online", "t", "--epoch", "1"], 0, many_online(8192), b""),
    ("a publishing too many", b"1 1\n1 0 1 0 1 1:8193\n", None, ["online", "t", "--epoch", "1"], 7, b"", b"sincronia: limit: epochs 8193\n"),
    ("fewer publishings by longer epochs", b"1 1\n1 0 1 0 1 1:8193\n", None, ["online", "t", "--epoch", "8193"], 0,
     many_online(8193).split(b"epoch 1\n")[0] + b"done" + many_online(8193).split(b"done")[1], b""),
    ("an epoch of no slots", LATE, None, ["online", "t", "--epoch", "0"], 2, b"", USAGE),
    ("an online run of two names", LATE, None, SERVE + ["t"], 2, b"", USAGE),
    ("an online run of no name", LATE, None, ["online"], 2, b"", USAGE),
    ("an online run of a bad trace", b"", None, SERVE, 3, b"", b"sincronia: trace: bad header\n"),
    ("an online run of bad weights", LATE, b"9 1\n", SERVE + ["--weights", "w"], 4, b"", b"sincronia: weights: line 1 unknown id 9\n"),
    ("an online run of too many units", TOO_MANY, None, SERVE, 7, b"", b"sincronia: limit: units 1099511627777\n"),
    ("an online run of no such file", None, None, SERVE, 8, b"", READ_FAULT),
    ("an online run of no such weights", LATE, None, SERVE + ["--weights", "w"], 8, b"", READ_FAULT),
]

# A client registers both coflows and publishes an order, and two runs are opened, the second of them until nothing is left.
JOURNAL = b"""sincronia live 1
entry 1 1 register 1 joined
entry 2 1 register 2 joined
entry 3 1 publish version 1
entry 4 0 open 4 opened 1 1 1
entry 5 0 close closed 1
entry 6 0 open 4 opened 2 3 1
entry 7 0 close closed 2
entry 8 0 open 4 nothing
order 1 2 1
pull 1 4 2 1 1
run 1 1
run 3 0
end
"""
AUDIT = ["audit", "t", "r"]

# rows as above, with the printed journal in place of the report, and weights `w` before it
AUDIT_ROWS = [
    ("a right journal", TWO, None, JOURNAL, AUDIT, 0, b"yes entries 8 versions 1 slots 4\n", b""),
    ("a journal of nothing", TWO, None, b"sincronia live 1\nend\n", AUDIT, 0, b"yes entries 0 versions 0 slots 0\n", b""),
    ("a journal of no coflow", b"2 0\n", None, b"sincronia live 1\nend\n", AUDIT, 0, b"yes entries 0 versions 0 slots 0\n", b""),
    ("an id that is no coflow's", TWO, None, JOURNAL.replace(b"register 2", b"register 3"), AUDIT, 1, b"no id 2\n", b""),
    ("another reply", TWO, None, JOURNAL.replace(b"closed 2", b"closed 3"), AUDIT, 1, b"no entry 7\n", b""),
    ("a run that is open", TWO, None, JOURNAL.replace(b"entry 7 0 close closed 2\nentry 8 0 open 4 nothing\n", b""), AUDIT, 1, b"no close 2\n", b""),
    ("another order", TWO, None, JOURNAL.replace(b"order 1 2 1", b"order 1 1 2"), AUDIT, 1, b"no order 1 1\n", b""),
    ("another rank", TWO, None, JOURNAL.replace(b"pull 1 4 2 1 1", b"pull 1 4 2 1 2"), AUDIT, 1, b"no pull 1 4 2 1\n", b""),
    ("a version that was not made", TWO, None, JOURNAL.replace(b"pull 1 4 2 1 1", b"pull 1 4 2 2 0"), AUDIT, 1, b"no version 1 4\n", b""),
    ("a run too long", TWO, None, JOURNAL.replace(b"run 3 0", b"run 4 0"), AUDIT, 1, b"no run 5\n", b""),
    ("a journal of other weights", TWO, b"1 5\n2 1\n", JOURNAL, AUDIT + ["--weights", "w"], 1, b"no entry 4\n", b""),
    ("a journal of other units", TWO, None, JOURNAL, ["audit", "--unit", "2", "t", "r"], 1, b"no entry 6\n", b""),
    ("a journal without its last line", TWO, None, JOURNAL[:-4], AUDIT, 5, b"", b"sincronia: report: line 14\n"),
    ("a journal with a reply of another command", TWO, None, JOURNAL.replace(b"register 1 joined", b"register 1 left"), AUDIT, 5, b"", b"sincronia: report: line 2\n"),
    ("a journal with carriage returns", TWO, None, JOURNAL.replace(b"\n", b"\r\n"), AUDIT, 5, b"", b"sincronia: report: line 1\n"),
    ("a report in place of a journal", TWO, None, TWO_TEXT, AUDIT, 5, b"", b"sincronia: report: line 1\n"),
    ("a journal in place of a report", TWO, None, JOURNAL, CHECK, 5, b"", b"sincronia: report: line 1\n"),
    ("no journal", TWO, None, None, AUDIT, 8, b"", READ_FAULT),
    ("a bad trace and no journal", b"", None, None, AUDIT, 3, b"", b"sincronia: trace: bad header\n"),
    ("a weight of no coflow and no journal", TWO, b"9 1\n", None, AUDIT + ["--weights", "w"], 4, b"", b"sincronia: weights: line 1 unknown id 9\n"),
    ("no journal of too many units", TOO_MANY, None, None, AUDIT, 7, b"", b"sincronia: limit: units 1099511627777\n"),
    ("no second name to audit", TWO, None, JOURNAL, ["audit", "t"], 2, b"", USAGE),
    ("a third name to audit", TWO, None, JOURNAL, AUDIT + ["r"], 2, b"", USAGE),
]
