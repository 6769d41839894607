"""The rows of `edit` of `tests/program`: a name, a code, a script, the status, what is written.

Worked from the rules of moves and of scripts alone; `tests/edit_scripts.py` makes many more by chance, with a plain reading of the moves.
"""
from rows.texts import CURL, HOPF, TREFOIL, lines, links

PRINTED_CURL = "PD[X[1, 1, 2, 2]]"
KINKED = "PD[X[3, 1, 4, 4], X[1, 3, 2, 2]]"
PRINTED_TREFOIL = "PD[X[1, 4, 2, 5], X[3, 6, 4, 1], X[5, 2, 6, 3]]"
APART = "PD[X[1,4,2,3], X[2,4,1,3]]"
TORUS = "PD[X[1,5,2,4], X[3,6,4,1], X[5,2,6,3]]"
KINK = "r1 add 1 under plus"
THERE_AND_BACK = [KINK, "r1 drop 2"]


def numbered(*each):
    """These lines, each behind its number, from 1."""
    return lines(*(f"{number} {line}" for number, line in enumerate(each, 1)))


def dropped(count, loops):
    """What is written where the first of so many curls is dropped, again and again, each becoming a loop."""
    return numbered(*(links(count - k, loops + k) for k in range(1, count + 1)))


# Three hundred changes, of which the last 256 are undone and redone, and one undo and one redo more.
CHANGES = THERE_AND_BACK * 150
CHANGED = [KINKED, PRINTED_CURL] * 150

ROWS = [
    ("a kink, a finger and back", CURL, lines("r2 add 1 left 2 right", "undo", "r2 add 1 left 2 left"), 7,
     numbered("PD[X[3, 1, 4, 6], X[4, 1, 5, 2], X[5, 3, 6, 2]]", PRINTED_CURL, "refused genus faces 3 wanted 5")),
    ("a curl that is dropped", CURL, lines("r1 drop 1", "undo", "undo"), 7,
     numbered("PD[Loop[1]]", PRINTED_CURL, "refused nothing to undo")),
    ("a slide", "PD[X[5,2,6,1], X[3,3,4,2], X[4,5,1,6]]", "r3 1 2 3\n", 0, "1 PD[X[6, 3, 5, 2], X[4, 2, 1, 1], X[3, 6, 4, 5]]\n"),
    ("a slide under a circle", "PD[X[1,6,2,5], X[4,6,1,5], X[2,4,3,3]]", "r3 1 2 3\n", 0,
     "1 PD[X[2, 6, 3, 5], X[3, 6, 4, 5], X[1, 1, 2, 4]]\n"),
    ("a bigon that is dropped", APART, "r2 drop 1 2", 0, "1 PD[Loop[1], Loop[2]]\n"),
    ("a kink on the second arc", CURL, "r1 add 2 under plus", 0, "1 PD[X[1, 1, 2, 4], X[2, 4, 3, 3]]\n"),
    ("no heights", TREFOIL, "r3 1 2 3", 7, "1 refused heights\n"),
    ("no bigon", TREFOIL, "r2 drop 1 2", 7, "1 refused no bigon at 1 2\n"),
    ("no fourth crossing", TREFOIL, "r1 drop 4", 7, "1 refused no crossing 4\n"),
    ("no crossing 0", TREFOIL, "r1 drop 0", 7, "1 refused no crossing 0\n"),
    ("no crossing 255", TREFOIL, "r3 1 255 0", 7, "1 refused no crossing 255\n"),
    ("no seventh arc", TREFOIL, "r1 add 7 under plus", 7, "1 refused no arc 7\n"),
    ("no arc 0", TREFOIL, "r2 add 1 left 000 right", 7, "1 refused no arc 0\n"),
    ("a crossing 256", TREFOIL, "r1 drop 256", 1, "refused line 1\n"),
    ("a crossing in four digits", TREFOIL, "r1 drop 0255", 1, "refused line 1\n"),
    ("a crossing with a sign", TREFOIL, "undo\nr1 drop +1", 1, "refused line 2\n"),
    ("no kink", TREFOIL, "r1 drop 1", 7, "1 refused no kink at 1\n"),
    ("no triangle", HOPF, "r3 1 2 2", 7, "1 refused no triangle at 1 2 2\n"),
    ("a kink on a loop", "PD[Loop[1]]", KINK, 7, "1 refused loop 1\n"),
    ("a finger over its own arc", CURL, "r2 add 1 left 1 right", 7, "1 refused same arc 1\n"),
    ("one crossing more than twenty", links(20, space=""), KINK, 7, "1 refused crossings 21 of 20\n"),
    ("two crossings more than nineteen", links(19, space=""), "r2 add 1 left 3 left", 7, "1 refused crossings 21 of 20\n"),
    ("twenty crossings and back", links(19, space=""), lines("r1 add 38 over minus", "r1 drop 20", "redo"), 7,
     numbered(links(18)[:-1] + ", X[37, 37, 38, 40], X[39, 38, 40, 39]]", links(19), "refused nothing to redo")),
    ("more than eight loops", links(5, 8, ""), lines(*["r1 drop 1"] * 5), 0, dropped(5, 8)),
    ("no script", TREFOIL, None, 0, ""),
    ("an empty script", TREFOIL, "", 0, ""),
    ("a script without words", TREFOIL, "\n \t\r\n\n", 0, ""),
    ("carriage returns, tabs and empty lines", CURL, "\r\n" + KINK.replace(" ", "\t") + "\r\n\r\n \tundo\r\n\nredo", 0,
     lines(f"2 {KINKED}", f"4 {PRINTED_CURL}", f"6 {KINKED}")),
    ("a carriage return that is no line end", CURL, "r1 drop 1\rundo", 1, "refused line 1\n"),
    ("a word with a vertical tab", CURL, "undo\x0b", 1, "refused line 1\n"),
    ("nothing to undo", TREFOIL, "undo", 7, "1 refused nothing to undo\n"),
    ("nothing to redo", TREFOIL, "\nredo", 7, "2 refused nothing to redo\n"),
    ("a change behind an undo", CURL, lines(KINK, "undo", "r1 drop 1", "redo"), 7,
     numbered(KINKED, PRINTED_CURL, "PD[Loop[1]]", "refused nothing to redo")),
    ("lines behind a refused line", TREFOIL, lines("undo", "r1 add 1 under plus"), 7, "1 refused nothing to undo\n"),
    ("a wrong line behind a refused line", TREFOIL, lines("undo", "turn 1"), 1, "refused line 2\n"),
    ("a wrong line", TREFOIL, "turn 1", 1, "refused line 1\n"),
    ("a schedule's line", TREFOIL, "look 1 0", 1, "refused line 1\n"),
    ("a second semicolon", TREFOIL, "undo;", 1, "refused line 1\n"),
    ("a wrong line on a torus code", TORUS, "turn 1", 1, "refused genus faces 3 wanted 5\n"),
    ("4,097 lines on a torus code", TORUS, "\n" * 4_097, 1, "refused genus faces 3 wanted 5\n"),
    ("4,096 lines without words", TREFOIL, "\n" * 4_096, 0, ""),
    ("a wrong line, the 4,096th", TREFOIL, "\n" * 4_095 + "turn", 1, "refused line 4096\n"),
    ("4,097 lines", TREFOIL, "\n" * 4_096 + "turn", 6, "limit lines 4097 of 4096\n"),
    ("4,096 lines that are done", CURL, lines(KINK, "undo", *["redo", "undo"] * 2_047), 0, numbered(*[KINKED, PRINTED_CURL] * 2_048)),
    ("300 changes and 257 undos", CURL, lines(*CHANGES, *["undo"] * 257), 7,
     numbered(*CHANGED, *[KINKED, PRINTED_CURL] * 128, "refused nothing to undo")),
    ("300 changes, 256 undos and 257 redos", CURL, lines(*CHANGES, *["undo"] * 256, *["redo"] * 257), 7,
     numbered(*CHANGED, *[KINKED, PRINTED_CURL] * 128, *[KINKED, PRINTED_CURL] * 128, "refused nothing to redo")),
    ("256 changes and as many undos", CURL, lines(*CHANGES[:256], *["undo"] * 256), 0, numbered(*[KINKED, PRINTED_CURL] * 256)),
    ("a finger that is dropped", TREFOIL, lines("r2 add 1 left 3 left", "r2 drop 4 5"), 0,
     numbered("PD[X[3, 8, 4, 9], X[7, 10, 8, 1], X[9, 4, 10, 5], X[6, 2, 7, 1], X[5, 2, 6, 3]]", PRINTED_TREFOIL)),
    ("two pieces that are joined", "PD[X[1,1,2,2], X[3,3,4,4]]", lines("r2 add 1 left 3 left", "undo"), 0,
     numbered("PD[X[3, 1, 4, 4], X[7, 5, 8, 8], X[6, 2, 7, 1], X[5, 2, 6, 3]]", links(2))),
    ("a Gauss text", "GaussCode[-1, 3, -2, 1, -3, 2] Signs[-1, -1, -1]", lines("r1 add 6 over minus", "r1 drop 4"), 0,
     numbered("PD[X[1, 4, 2, 5], X[3, 8, 4, 1], X[5, 2, 6, 3], X[7, 6, 8, 7]]", PRINTED_TREFOIL)),
    ("JSON", "[[1,1,2,2]]", "r1 drop 1", 0, "1 PD[Loop[1]]\n"),
    ("JSON with a semicolon in a word", '[[1,1,2,";"]]', "", 1, "refused json\n"),
]
