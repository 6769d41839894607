"""Tries lists, databases and questions of `kh-tabulate` (see `tabulation.py`)."""
import json
import os
import random
import subprocess

from bench.braids import planar_diagram
from shared.places import read_text
from shared.running import PATIENCE
from shared.tabulating import COUNT, HEAD, TABULATE, kept_fault, wanted


def options_on_both_sides(folder):
    """Options stand before the command and behind it, and those behind it are the ones that hold."""
    folder.run("run", "--fields", "5", folder.at("list"), folder.at("results.db"), "--jobs", "9")
    _, wrote, errors = folder.run("write", "--json", folder.at("results.db"))
    found = [json.loads(line)["field"] for line in wrote.splitlines()]
    return None if found == [5] * (COUNT + 2) else f"{found}: {errors}"


def rows_of_a_list(folder):
    """Blank lines and comments are left out, a line without a tab has its number, the same line twice is one; a mended list has its own
    rows; the list - is standard input."""
    for code in ("bad", "PD[Loop[1]]"):
        path = folder.write("some", f"# a list\n \n\nb\t{code}\nPD[]\na\twide\nb\t{code}\nnone\t \n")
        folder.run("run", path, folder.at("results.db"), "--fields", "2")
    every = folder.run("write", folder.at("results.db"))[1].splitlines()
    wanted_rows = [HEAD[:4], ["b", "PD[Loop[1]]", "2", "0"], ["line 5", "PD[]", "2", "0"], ["a", "wide", "2", "6"], ["none", " ", "2", "1"]]
    given = read_text(path)
    for words, text in (((path,), None), (("-",), given)):
        came = folder.run("write", folder.at("results.db"), "--list", *words, given=text)
        rows = [line.split("\t")[:4] for line in came[1].splitlines()]
        if rows != wanted_rows:
            return f"{rows} and not {wanted_rows}"
    said = folder.run("write", "--list", "-", folder.at("results.db"), given="x\tPD[Loop[1]]\nb\tbad\n")[2]
    return None if len(every) == 6 and "of 1 links of the list there is no row" in said else f"{every}, {said}"


def tabs_in_codes(folder):
    """A tab in a code is a space in a row, so that each row has its columns; in lines of JSON it stays."""
    folder.write("some", "one\tPD[\tLoop[1]]\n")
    folder.run("run", folder.at("some"), folder.at("results.db"), "--fields", "2")
    rows = [line.split("\t") for line in folder.run("write", folder.at("results.db"))[1].splitlines()]
    right = [len(row) for row in rows] == [len(HEAD)] * 2 and rows[1][:3] == ["one", "PD[ Loop[1]]", "2"]
    return None if right and folder.results()[0][1] == "PD[\tLoop[1]]" else f"{rows}, {folder.results()}"


def codes_with_two_names(folder):
    """A code with two names is worked out once and stands once, and counts twice; so does a table that two codes have."""
    path = folder.write("some", "one\tPD[Loop[1]]\ntwo\tPD[Loop[1]]\nthree\tPD[Loop[2]]\n")
    _, _, errors = folder.run("run", path, folder.at("results.db"))
    counted = folder.select("select (select count(*) from codes), (select count(*) from links), (select count(*) from tables)")
    right = counted == [(2, 3, 1)] and folder.calls() == 4 and len(folder.results()) == 6 and "6 answered, of 6" in errors
    return None if right else f"{counted}, {folder.calls()} calls, {folder.results()}, {errors}"


OLDER = """
create table results (
    name text, code text, field integer, status integer, table_rows text, jones text, refusal text, seconds real,
    primary key (name, code, field)
)
"""


def older_database(folder):
    """A database of an older version is not read, and what to do is said; then it has its results in their order, and their dimensions;
    nothing is worked out again, but for what told the limit on generators."""
    folder.select(OLDER)
    rows = [row for row in wanted() if row[0] not in ("link 1", "link 2")]
    for row in reversed(rows):
        row = ("huge", "large", row[2], 6, "", "", "limit generators 6630936 of 4194304") if row[0] == "huge" else row[:-1]
        folder.select(f"insert into results values {(*row, 0.5)}")
    for words in (("write", folder.at("results.db")), ("query", "same", folder.at("results.db"))):
        status, _, errors = folder.run(*words)
        if status != 1 or "kh-tabulate rebuild" not in errors:
            return f"{words}: status {status}, {errors}"
    status, _, errors = folder.run("rebuild", folder.at("results.db"))
    kept, said = folder.dimensions()
    names = [line.split("\t")[0] for line in folder.run("write", folder.at("results.db"))[1].splitlines()[1:]]
    if status or kept != said or len(said) != 4 * (COUNT - 2) or names[::2] != [row[0] for row in reversed(rows)][: COUNT]:
        return f"status {status}, {errors}, {kept} and not {said}, {names}"
    folder.run("run", folder.at("list"), folder.at("results.db"))
    programs = dict(folder.select("select program, count(*) from answers group by program"))
    folder.select("update answers set program = 'scan'")
    right = folder.calls() == 6 and programs == {"kh": 2 * (COUNT - 1), "scan": 6}
    return kept_fault(folder) or (None if right else f"{folder.calls()} calls, {programs}")


def last_version(folder):
    """A database as the version before had it, with numbers, dimensions and a trigger, is brought up by a run, and by what is stored."""
    folder.run("work", folder.at("list"), folder.at("out"))
    calls = folder.calls()
    for words in (("run", folder.at("list"), folder.at("results.db")), ("store", folder.at("results.db"), folder.at("out"))):
        folder.remove("results.db")
        folder.select(OLDER.replace("primary key (", "program text, id integer primary key, unique ("))
        folder.select("create table dimensions (name, field, j, i, dim, result)")
        folder.select("create trigger dimensions_of_dropped after delete on results begin delete from dimensions; end")
        for row in wanted():
            folder.select(f"insert into results values {(*row[:-1], 0.5, 'scan', None)}".replace("None", "null"))
        status, _, errors = folder.run(*words)
        if status or kept_fault(folder) or folder.calls() != calls:
            return f"{words}: status {status}, {errors}, {kept_fault(folder)}, {folder.calls()} calls"
    return None


def other_databases(folder):
    """What is no database of `kh-tabulate`, or of a newer version, is left as it is."""
    others = ("create table links (name text)", "no database of kh-tabulate"), ("pragma user_version = 99", "newer version")
    for statement, said in others:
        folder.remove("results.db")
        folder.select(statement)
        for words in (("run", folder.at("list"), folder.at("results.db")), ("rebuild", folder.at("results.db"))):
            status, _, errors = folder.run(*words)
            if status != 1 or said not in errors:
                return f"{words}: status {status}, {errors}"
    return None


def dropped_results(folder):
    """What is dropped by other programs has no dimensions any more, what is stored again stands once, and what was spoilt is rebuilt."""
    folder.run("work", folder.at("list"), folder.at("out"))
    for _ in range(2):
        folder.run("store", folder.at("results.db"), folder.at("out"))
    if kept_fault(folder):
        return kept_fault(folder)
    folder.select("delete from results where name = 'link 3' and field = 2")
    kept, said = folder.dimensions()
    if kept != said or len(folder.results()) != 2 * (COUNT + 2) - 1:
        return f"{kept} and not {said}"
    folder.select("update degrees set dim = 7 where j = 1")
    folder.select("delete from results where name = 'huge'")
    _, _, errors = folder.run("rebuild", folder.at("results.db"))
    kept, said = folder.dimensions()
    return None if kept == said and "dimensions of 1 tables" in errors else f"{errors}, {kept} and not {said}"


def spoilt_lines(folder):
    """Lines of JSON that `work` has not written are told; those of a version without programs are read."""
    folder.run("work", folder.at("list"), folder.at("out"))
    text = read_text(folder.at("out"))
    folder.run("store", folder.at("results.db"), folder.write("older", text.replace(', "program": "scan"', "")))
    programs = folder.select("select distinct program from answers")
    for wrong in ("[]\n", '{"name": "one"}\n', text.splitlines()[0].replace("; 1 0 1", "; one") + "\n"):
        status, _, errors = folder.run("store", folder.at("other.db"), folder.write("wrong", text + wrong))
        if status != 1 or not ("has a line that" in errors or "this is no table: -1 0 1; one" in errors):
            return f"{wrong}: status {status}, {errors}"
    return None if programs == [("kh",)] else str(programs)


# A list, the questions, and what they answer. The old code of `mended` stays in the database, and is not in the list.
MENDED = "mended\tbad\n"
ASKED = (
    "a\tPD[Loop[1]]\nb\ttrefoil\nc\tPD[Loop[2]]\nd\ttrefoil\tturned\ne\tmirrored\nf\ttwin\ng\tthreefold\nhuge\twide\nmended\tPD[]\n"
)
TORSION = "name\tj\ti\tover_2\tover_3\tover_5\tover_7\tcode\n"
SAME, SIDES = "class\tname\tfields\tcode\n", "class\tname\tfields\ttable\tcode\n"
JONES = "class\ttable\tname\tfields\tcode\n"
REFUSED = "name\tfields\tstatus\tline\tcode\n"
LARGE = "huge\t{}\t6\tlimit crossings 21 of 20\twide\n"
EVEN = "".join(f"{it[0]}\t7\t{i}\t1\t0\t\t\t{it[1]}\n" for it in (("b", "trefoil"), ("d", "trefoil turned")) for i in (2, 3))
EVEN += "e\t-7\t-3\t1\t0\t\t\tmirrored\ne\t-7\t-2\t1\t0\t\t\tmirrored\n"
THREE = "g\t5\t2\t0\t1\t\t\tthreefold\ng\t5\t3\t0\t1\t\t\tthreefold\n"
UNKNOTS = "1\ta\t{0}\t{1}PD[Loop[1]]\n1\tc\t{0}\t{1}PD[Loop[2]]\n1\tmended\t{0}\t{1}PD[]\n"
TREFOILS = "2\tb\t2,3\t{0}trefoil\n2\td\t2,3\t{0}trefoil turned\n"
OF_SCANS = "table 2\nfield {0}\nj 1 i 0 dim 1\nj 3 i 0 dim 1\nj 5 i 2 dim 1\n{1}j 9 i 3 dim 1\njones 1*q^1 1*q^3 1*q^5 -1*q^9\n"
TABLE = OF_SCANS.format(3, "") + OF_SCANS.format(2, "j 7 i 2 dim 1\nj 7 i 3 dim 1\n")
NONE = "name\ttable\tcode\n"
WITH = f"{NONE}b\tsame\ttrefoil\nd\tsame\ttrefoil turned\n"
FRAMES = "answers 1\n" + "".join(f"code 1 field {it[14]} status 0 bytes {len(it)}\n{it}" for it in (TABLE[: TABLE.rindex("table")],))
OVER_THREE = WITH + "e\tmirror\tmirrored\n"
GIVEN = (
    ("no table\n", (), NONE, "standard input has no tables"),
    (TABLE + OF_SCANS.format(2, ""), (), NONE, "two tables over 2 elements"),
    (TABLE, ("--fields", "5"), NONE, "tables over other fields: 3,2"),
    (FRAMES, ("--mirror",), OVER_THREE, "links with this table: 3"),
    (TABLE, ("--mirror", "--fields", "3"), OVER_THREE, "links with this table: 3"),
)
QUESTIONS = [
    (("same",), SAME + UNKNOTS.format("2,3", "") + TREFOILS.format(""), "classes: 2; links in them: 5, of 8 with a table"),
    (("same", "--mirror"), SIDES + UNKNOTS.format("2,3", "both\t") + TREFOILS.format("same\t") + "2\te\t2,3\tmirror\tmirrored\n",
     "classes: 2; links in them: 6, of 8 with a table"),
    (("torsion",), TORSION + EVEN + THREE, "links with torsion: 4; without: 4; known over too few fields: 2"),
    (("torsion", "--prime", "3"), TORSION + THREE, "links with torsion: 1; without: 7; known over too few fields: 2"),
    (("torsion", "--prime", "5"), TORSION, "links with torsion: 0; without: 0; known over too few fields: 10"),
    (("torsion", "--fields", "3"), TORSION, "links with torsion: 0; without: 0; known over too few fields: 9"),
    (
        ("jones",),
        JONES + "1\t1\ta\t2,3\tPD[Loop[1]]\n1\t1\tc\t2,3\tPD[Loop[2]]\n1\t1\tmended\t2,3\tPD[]\n1\t2\tg\t2,3\tthreefold\n"
        "2\t1\tb\t2,3\ttrefoil\n2\t1\td\t2,3\ttrefoil turned\n2\t2\tf\t2,3\ttwin\n",
        "Jones polynomials with several tables: 2; links that have them: 7, of 8 with a table",
    ),
    (("jones", "--fields", "2"), JONES + "1\t1\tb\t2\ttrefoil\n1\t1\td\t2\ttrefoil turned\n1\t2\tf\t2\ttwin\n",
     "Jones polynomials with several tables: 1; links that have them: 3, of 8 with a table"),
    (("table",), WITH, "links with this table: 2"),
    (("table", "--mirror"), WITH + "e\tmirror\tmirrored\n", "links with this table: 3"),
    (("refused",), REFUSED + LARGE.format("2,3") + "mended\t2\t1\trefused text at 0\tbad\n", "links refused or too large: 2; others: 8"),
    (("refused", "--fields", "3"), REFUSED + LARGE.format("3"), "links refused or too large: 1; others: 8"),
    (("refused", "--list"), REFUSED + LARGE.format("2,3"), "links refused or too large: 1; others: 8"),
]  # fmt: skip


def questions(folder):
    """Each ready question, to all results, to those over some fields and to those of a list."""
    folder.run("run", folder.write("mended", MENDED), folder.at("results.db"), "--fields", "2")
    folder.run("run", folder.write("some", ASKED), folder.at("results.db"))
    for (question, *options), wrote, said in QUESTIONS:
        options += [folder.at("some")] if options == ["--list"] else []
        came = folder.start(TABULATE, "query", question, folder.at("results.db"), *options)
        found = (*came.communicate(TABLE if question == "table" else None, timeout=PATIENCE), came.returncode)
        if found != (wrote, f"kh-tabulate: {said}\n", 0):
            return f"{question} {options}: {found} and not {wrote}{said}"
    return next(filter(None, (given_fault(folder, *it) for it in GIVEN)), None)


def given_fault(folder, given, options, wrote, said):
    """What is wrong with what is written where these tables are given, if anything is."""
    status, found, errors = folder.run("query", "table", folder.at("results.db"), *options, given=given)
    return None if status == (wrote == NONE) and found == wrote and said in errors else f"{options}: {status}, {found}, {errors}"


# As KnotInfo writes its file: a heading of names, one of titles, and fields between bars; links as LinkInfo has them.
KNOTS = """\
name|name_rank|knot_atlas_anon|dt_notation|pd_notation|crossing_number
Name|Name Rank|Knot Atlas|DT Notation|PD Notation|Crossing Number
3_1|1|3_1|[4, 6, 2]|[[1,5,2,4],[3,1,4,6],[5,3,6,2]]|3
4_1|2|4_1|[4, 6, 8, 2]|[[4,2,5,1],[8,6,1,5],[6,3,7,4],[2,7,3,8]]|4
L2a1{0}|3|L2a1|[{4}, {2}]|[[4,1,3,2],[2,3,1,4]]|2
cut|4|cut||[[1,4,2,5]|3
"""


def tables_of_other_programs(folder):
    """A file with a heading is read as `tools/kh-codes` reads it, also as a list of what is asked; a wrong code is refused."""
    status, _, errors = folder.run("run", folder.write("knots.csv", KNOTS), folder.at("results.db"), "--fields", "all")
    names = sorted({(it[0], it[1][:9]) for it in folder.results()})
    wanted_names = [("3_1", "PD[X[1, 5"), ("4_1", "PD[X[4, 2"), ("L2a1{0}", "PD[X[4, 1"), ("cut", "[[1,4,2,5")]
    rows = folder.run("write", "--list", folder.at("knots.csv"), folder.at("results.db"))[1].splitlines()
    if status or names != wanted_names or len(rows) != 17 or "knots.csv:6: cut: " in errors or "1 wrong and kept" not in errors:
        return f"status {status}, {names}, {len(rows)} rows, {errors}"
    calls = folder.calls()
    status, _, errors = folder.run("run", "-", folder.at("results.db"), "--fields", "all", given=KNOTS)
    return None if status == 0 and folder.calls() == calls and len(folder.results()) == 16 else f"status {status}, {errors}"


# A list of mixed forms: names of links, with a name before them and without, forms that `kh` reads, and others.
MIXED = "\ufeff# mixed\nmine\t3_1\n8_19\n3 loops\nk\tPD[Loop[1]]\nl\t[[4,1,3,2],[2,3,1,4]]\nb\tbraid: 1 1 1\nw\tno such knot\n[4, 6, 2]\n"
MIXED_NAMES = ["mine", "8_19", "3 loops", "k", "l", "b", "w", "line 9"]
MIXED_SAID = "3 codes are in none of the forms that kh reads, the first in line 7: tools/kh-codes --names turns other forms into one\n"


def mixed_forms(folder):
    """The name of a link is read in place of a code, as `kh.read` reads it; of other forms `kh-codes` is named; also by way of a pipe."""
    path = folder.write("mixed", MIXED)
    calls = [((path,), None), (("-",), MIXED), (("/dev/stdin",), MIXED)]
    for words, given in calls:
        folder.remove("results.db")
        status, _, errors = folder.run("run", *words, folder.at("results.db"), "--fields", "2", given=given)
        codes = dict(folder.select("select name, code from results"))
        right = codes.get("mine") == "PD[X[4, 2, 5, 1], X[2, 6, 3, 5], X[6, 4, 1, 3]]" and codes.get("3 loops", "").count("Loop") == 3
        is_said = f"{words[0]}: {MIXED_SAID}" in errors and f"{words[0]}:2: mine: the closed braid of 3_1" in errors
        if status or sorted(codes) != sorted(MIXED_NAMES) or not right or not is_said or "\ufeff" in "".join(codes):
            return f"{words}: status {status}, {codes}, {errors}"
    wrote = folder.run("write", "--list", path, folder.at("results.db"))[1].splitlines()
    return None if [line.split("\t")[0] for line in wrote[1:]] == MIXED_NAMES else f"{wrote}"


def list_of_a_named_pipe(folder):
    """A list that is a named pipe is opened once, whether it is a list of lines or a table."""
    for text, count in ((MIXED, 8), (KNOTS, 4)):
        pipe = folder.at("pipe")
        os.mkfifo(pipe)
        writer = subprocess.Popen(["sh", "-c", 'exec cat "$1" > "$2"', "sh", folder.write("some", text), pipe])
        folder.remove("results.db")
        _, _, errors = folder.run("run", pipe, folder.at("results.db"), "--fields", "2")
        os.unlink(pipe)
        if writer.wait(PATIENCE) or len(folder.results()) != count:
            return f"{len(folder.results())} results of {count}, {errors}"
    return None


# How many pairs of mirror images a file of links has, and the torus knot and its mirror image with dimensions that are known.
PAIRS, SEED = 149, 7
TORUS = [1, 2, 1, 2, 1, 2, 1, 2]


def drawn_words():
    """Words of braids on three and four strands that all cross, with up to ten letters, and their mirror images, by name."""
    draw, found = random.Random(SEED), {"torus": (3, TORUS), "torus mirrored": (3, [-it for it in TORUS])}
    while len(found) < 2 * PAIRS + 2:
        strands = draw.randrange(3, 5)
        word = [draw.choice((1, -1)) * draw.randrange(1, strands) for _ in range(draw.randrange(strands - 1, 11))]
        if {*map(abs, word)} == {*range(1, strands)}:
            number = len(found) // 2
            found[f"K{number}"], found[f"K{number} mirrored"] = (strands, word), (strands, [-it for it in word])
    return found


def written_as_knotinfo(words):
    """A file with a bar between fields: a heading of names, one of titles, and a row for each link."""
    rows = ["name|braid_notation|pd_notation", "Name|Braid Notation|PD Notation"]
    for name, (strands, word) in words.items():
        text = planar_diagram(strands, word)[3:-1].replace("X[", "[")
        rows.append(f"{name}|{{{','.join(map(str, word))}}}|[{text}]")
    return "\n".join([*rows, ""])


def file_of_links(folder, scan):
    """A file of 300 links over four fields by the program itself: all are answered, each is beside its mirror image, and the torus
    knot has the torsion of order 2 that `docs/TABULATION.md` shows."""
    words, results = drawn_words(), folder.at("results.db")
    path = folder.write("knots.csv", written_as_knotinfo(words))
    status, _, errors = folder.run("run", path, results, "--fields", "all", "--scan", scan)
    if status or f"{4 * len(words)} answered, of {4 * len(words)}" not in errors:
        return f"status {status}, {errors}"
    classes = {}
    for line in folder.run("query", "same", "--mirror", "--fields", "all", results)[1].splitlines()[1:]:
        number, name, _, side, _ = line.split("\t")
        classes[name] = number, side
    pairs = [(classes.get(name), classes.get(f"{name} mirrored")) for name in words if not name.endswith("mirrored")]
    apart = [pair for pair in pairs if None in pair or pair[0][0] != pair[1][0] or (pair[0][1] == pair[1][1]) != (pair[0][1] == "both")]
    torsion = [line.split("\t")[:5] for line in folder.run("query", "torsion", "--fields", "all", results)[1].splitlines()]
    found = [row[1:] for row in torsion if row[0] == "torus"]
    right = found == [["11", "2", "1", "0"], ["11", "3", "1", "0"]]
    return None if right and not apart else f"{apart[:3]} of {len(apart)}, {found}"


TESTS = (
    options_on_both_sides, rows_of_a_list, tabs_in_codes, codes_with_two_names, older_database, last_version, other_databases,
    dropped_results, spoilt_lines, questions, tables_of_other_programs, mixed_forms, list_of_a_named_pipe,
)  # fmt: skip
