"""The rows of `schedule` of `tests/program`: a name, words, an input, the status, what is written."""
from rows.texts import (
    CHECK, EMPTY_TABLE, FIGURE_EIGHT, FIGURE_EIGHT_TABLE, HOMOLOGY, HOPF, HOPF_TABLE, MANY_GENERATORS, SCHEDULE, TOO_MANY_BYTES,
    TREFOIL, TREFOIL_OVER_THREE, TREFOIL_TABLE, curls, lines, padded,
)

# Schedules on HOPF, and what is answered to each line.
TWO_LOOKS = ["look 1 -2", "look 2 -2", "commit 1", "commit 2", "look 2 -2", "commit 2", "look 1 -2"]
TWO_LOOKS_ANSWERED = ["1 looked 0", "2 looked 0", "3 committed 1", "4 stale 0 1", "5 looked 1", "6 committed 2", "7 zero"]
LOOKS = [f"look {worker} -1" for worker in range(1, 65)]
LOOKS_ANSWERED = [f"{worker} looked 0" for worker in range(1, 65)]
OTHERS = ["commit 1", "look 1 -3", "look 1 0", "forget 1", "", "look 64 -2", "forget 64"]
OTHERS_ANSWERED = ["1 idle", "2 noblock", "3 zero", "4 idle", "6 looked 0", "7 forgot"]

ROWS = [
    ("a schedule", SCHEDULE, HOPF + ";" + lines(*TWO_LOOKS), 0, lines(*TWO_LOOKS_ANSWERED) + HOPF_TABLE),
    ("a schedule of other events", SCHEDULE, HOPF + ";" + lines(*OTHERS), 0, lines(*OTHERS_ANSWERED) + HOPF_TABLE),
    ("a schedule without a script", SCHEDULE, HOPF, 0, HOPF_TABLE),
    ("a schedule of an empty script", SCHEDULE, HOPF + ";", 0, HOPF_TABLE),
    ("a schedule with carriage returns", SCHEDULE, HOPF + ";\r\nlook 1 0\r\n\r\n", 0, "2 zero\n" + HOPF_TABLE),
    ("a schedule of a semicolon", SCHEDULE, ";", 1, "refused text at 0\n"),
    ("a schedule of two semicolons", SCHEDULE, HOPF + ";look 1 0;", 1, "refused line 1\n"),
    ("a schedule with a plus sign", SCHEDULE, HOPF + ";look 1 0\nlook 1 +1\n", 1, "refused line 2\n"),
    ("a schedule with worker 65", SCHEDULE, HOPF + ";look 65 0", 1, "refused line 1\n"),
    ("a schedule with a form feed", SCHEDULE, HOPF + ";forget 1\f", 1, "refused line 1\n"),
    ("a schedule of 4,096 lines", SCHEDULE, HOPF + ";" + "\n" * 4_095 + "idle", 1, "refused line 4096\n"),
    ("a schedule of 4,097 lines", SCHEDULE, HOPF + ";" + "\n" * 4_096 + "idle", 6, "limit lines 4097 of 4096\n"),
    ("4,096 commits of nothing", SCHEDULE, "PD[];" + "commit 1\n" * 4_096, 0, lines(*(f"{k} idle" for k in range(1, 4_097))) + EMPTY_TABLE),
    ("64 workers look", SCHEDULE, FIGURE_EIGHT + ";" + lines(*LOOKS), 0, lines(*LOOKS_ANSWERED) + FIGURE_EIGHT_TABLE),
    ("a schedule of bytes that are no text", SCHEDULE, HOPF.encode() + b";\xff", 1, "refused line 1\n"),
    ("a bad script on a bad code", SCHEDULE, "PD[X[1,2,1,2]];idle", 1, "refused checkerboard at arc 1\n"),
    ("a bad script on twenty curls", SCHEDULE, curls(20) + ";idle", 1, "refused line 1\n"),
    ("a schedule on twenty curls", SCHEDULE, curls(20) + ";", 6, MANY_GENERATORS),
    ("a schedule of 65,537 bytes", SCHEDULE, padded(HOPF + ";", 65_537), 6, TOO_MANY_BYTES),
    ("a script for another command", CHECK, HOPF + ";", 1, "refused text at 25\n"),
    ("a schedule in which nothing is committed", SCHEDULE, HOPF + ";commit 1\nlook 1 -3\nlook 1 0\nforget 1\n", 0,
     "1 idle\n2 noblock\n3 zero\n4 idle\n" + HOPF_TABLE),
    ("a schedule behind a line of blanks", SCHEDULE, HOPF + ";\n \t\r\nlook 1 0\r\n", 0, "3 zero\n" + HOPF_TABLE),
    ("a schedule without its last line feed", SCHEDULE, HOPF + ";look 64 -2\nforget 64\nforget 64\ncommit 64", 0,
     "1 looked 0\n2 forgot\n3 idle\n4 idle\n" + HOPF_TABLE),
    ("a schedule with leading zeros and an empty line", SCHEDULE, HOPF + ";look 1 -2\nlook 02 -004\n\ncommit 2\ncommit 1\n", 0,
     "1 looked 0\n2 looked 0\n4 committed 1\n5 committed 1\n" + HOPF_TABLE),
    ("a schedule in which a look where no block is forgets", SCHEDULE,
     HOPF + ";look 1 -2\nlook 1 -3\ncommit 1\nlook 1 -2\nlook 1 -00\nforget 1\n", 0,
     "1 looked 0\n2 noblock\n3 idle\n4 looked 0\n5 zero\n6 idle\n" + HOPF_TABLE),
    (
        "a schedule in JSON over seven elements",
        ["schedule", "--field", "7", "--to", "gauss"],
        "[[4,1,3,2],[2,3,1,4]];look 1 -4\n",
        0,
        "1 looked 0\ntable 2\nfield 7\nj -6 i -2 dim 1\nj -4 i -2 dim 1\nj -2 i 0 dim 1\nj 0 i 0 dim 1\n"
        "jones 1*q^-6 1*q^-4 1*q^-2 1*q^0\n",
    ),
    ("a schedule of two commits to one block", SCHEDULE, TREFOIL + ";look 1 -7\ncommit 1\nlook 1 -7\ncommit 1\nlook 1 -7\n", 0,
     "1 looked 0\n2 committed 1\n3 looked 1\n4 committed 2\n5 zero\n" + TREFOIL_TABLE),
    ("a schedule of two commits to one block over three elements", ["schedule", "--field", "3"],
     TREFOIL + ";look 1 -7\ncommit 1\nlook 1 -7\ncommit 1\nlook 1 -7\n", 0,
     "1 looked 0\n2 committed 1\n3 looked 1\n4 committed 2\n5 looked 2\n" + TREFOIL_OVER_THREE),
    ("a schedule of nonsense on a virtual crossing", SCHEDULE, "PD[X[1,2,1,2]];nonsense", 1, "refused checkerboard at arc 1\n"),
    ("a schedule on a code that is cut off", SCHEDULE, "PD[X[;look 1 0", 1, "refused text at 5\n"),
    ("a schedule with the code behind it", SCHEDULE, " ;GaussCode[]", 1, "refused text at 1\n"),
    ("a schedule with worker 0", SCHEDULE, HOPF + ";\n\nlook 0 0\nlook 1 0 0", 1, "refused line 3\n"),
    ("a schedule with a semicolon in a line", SCHEDULE, HOPF + ";look 1 0;look 1 0", 1, "refused line 1\n"),
    ("a schedule with a carriage return in a line", SCHEDULE, HOPF + ";commit 1\rcommit 1", 1, "refused line 1\n"),
    ("a schedule with a capital on sixteen curls", SCHEDULE, curls(16) + ";Look 1 0", 1, "refused line 1\n"),
    ("a schedule on sixteen curls", SCHEDULE, curls(16) + ";look 1 0", 6, "limit generators 2821109907456 of 4194304\n"),
    ("a script for homology", HOMOLOGY, HOPF + ";look 1 0", 1, "refused text at 25\n"),
]
