"""Has `kh-scan` work out a list of links, with a process for each processor, and keeps what it answers in a database.

    kh-tabulate run LIST RESULTS        all of a list on this machine, into a database
    kh-tabulate cut LIST FOLDER         a list into parts of 1000 links, or --links, in a new folder: part-000000 and so on
    kh-tabulate work PART OUT           a part of a list, into lines of JSON: what GNU parallel or a batch queue calls
    kh-tabulate store RESULTS OUT..     lines of JSON into a database
    kh-tabulate write RESULTS           a database as text, tab separated, or with --json as lines of JSON
    kh-tabulate query same RESULTS      links with the same tables, over the same fields; with --mirror also those of mirror images
    kh-tabulate query torsion RESULTS   links whose dimensions are not the same over all fields, and at which degrees; with --prime 3 those
                                        where that over 3 is greater than that over another field
    kh-tabulate query jones RESULTS     links with the same Jones polynomial and other tables
    kh-tabulate query table RESULTS     links with the tables that `kh` or `kh-scan` has written, on standard input; --mirror as above
    kh-tabulate query refused RESULTS   what was refused or is too large, with the line that was written
    kh-tabulate rebuild RESULTS         a database of an older version brought up to this one; what follows from its results is made anew

A list has a line for each link: a name, a tab and a code, as `tools/kh-codes --names` writes them; or it is a table with a heading, such as
KnotInfo's, which `tools/kh-codes` reads. In place of a code the name of a link may stand, such as 8_19. Blank lines and those that begin
with # are left out; a line without a tab is a code, named for its number, or the name of a link; lines that are the same are one link. The
list - is standard input; a pipe is read too. A result is one row for each link and field: the name, the
code, the field, the status, the table, the Jones line, or the one line of the refusal, the seconds that it took, and the program: scan, or
kh. A code is worked out once, whatever names it has. Whatever was stopped or killed goes on where it was: results that are there are not
worked out again, but for those that tell the limit on generators of `kh`, where `kh-scan` is asked. With --list, `write` and `query` take
the links of a list alone. Options may stand before the command and behind it.

At the end a line on standard error says how many results were answered, refused, too large, out of time and so on. The status is 0 where
each result is there, 1 where one is missing or something is wrong, 3 where each is there and none was answered (of `run` and `store`; a
part of a list may be so), 130 after Control-C, and 143 after TERM.
"""
import argparse
import itertools
import json
import os
import signal
import sqlite3
import sys
import threading
from collections import Counter

from ..places import TOP, built_file
from ..programs import stale
from . import lists, queries
from .chosen import Chosen, in_parts
from .tasks import KH, KINDS, LIMIT_OF_CUBES, SCAN, Answer, Lost, Single, Task, try_program
from .results import ANSWERED, COLUMNS, OLDER, ROW, Fault, Keeper, open_database, open_to_read, rebuild, together
from .streams import Scans, in_runs
from .telling import Progress, Tally

# The crate of each program.
CRATES = {KH: "kh_main", SCAN: "scan_main"}
FIELDS = ("2", "3", "5", "7")
# How many lines of JSON are stored at once.
LINES = 5_000
# Which results can be no other, as conditions of SQL: where a scan is asked, the limit on generators is not the last word.
FINAL = {KH: "1", SCAN: f"refusal not like '{LIMIT_OF_CUBES}%'"}


def program_of(words, jobs):
    """The program that is asked, once it has been tried."""
    kind, crate = KINDS[words.program], CRATES[words.program]
    path = words.kh if words.program == KH else words.scan
    why = stale(crate) if TOP and not path else ""
    if why:
        raise Fault(f"{why}: ./build makes the program that is taken without {kind.option}")
    path = path or built_file(crate)
    try_program(kind, path)
    return Single(KH, [path, "homology"], jobs, words.seconds) if words.program == KH else Scans(path, jobs, words.seconds)


def tasks_of(chosen, words):
    """What is to be worked out of a list; a task's key is the number of its code, and how many of the links have it."""
    for part in chosen.open_codes(words.fields, FINAL[words.program]):
        yield from in_runs(Task((number, links), code, tuple(fields)) for number, links, code, fields in part if fields)


def tell_lost(lost, name):
    print(f"\n{name} over {lost.field}: no answer of the program, which {lost.how}; the same words try it again", file=sys.stderr)


def name_of(database, code):
    """A name of the code of this number."""
    return database.execute("select name from links where code = ? order by id limit 1", (code,)).fetchone()[0]


def keep(database, came):
    """Puts answers into a database, all of them or none."""
    keeper = Keeper(database)
    with together(database):
        for it in came:
            keeper.keep(it.key[0], it[1:])


def run(words):
    """All of a list, with so many programs at once. What has ended is kept twice a second."""
    lists.need(words.list)
    program = program_of(words, words.jobs)
    database = open_database(words.results)
    chosen = Chosen(database)
    chosen.enter(lists.links(words.list))
    whole, known = chosen.count() * len(words.fields), chosen.known(words.fields, FINAL[words.program])
    tally, progress, kept = Tally(words.list, whole, known), Progress(whole, sum(known.values())), []
    try:
        for it in program.answers(tasks_of(chosen, words)):
            if it:
                tally.add(it, it.key[1])
            if isinstance(it, Lost):
                tell_lost(it, name_of(database, it.key[0]))
            elif it:
                kept.append(it)
            if progress.step(it.key[1] if isinstance(it, Answer) else 0):
                keep(database, kept)
                kept = []
    finally:
        keep(database, kept)
        progress.end()
        tally.tell()
    return tally.status()


def cut(words):
    """Writes a list in parts of a folder, which is new."""
    links = lists.links(words.list)
    parts = iter(lambda: list(itertools.islice(links, words.links)), [])
    os.makedirs(words.folder)
    number = -1
    for number, part in enumerate(parts):
        with open(os.path.join(words.folder, f"part-{number:06}"), "x", encoding="utf-8") as file:
            file.writelines(f"{name}\t{code}\n" for name, code in part)
    if number < 0:
        raise Fault(f"{words.list} has no link")
    return 0


def lines_of(path):
    """The results in a file of lines of JSON, each with the place of the line's end; the last line may be cut off, and is left out then."""
    place = 0
    with open(path, "rb") as file:
        for line in file:
            if not line.endswith(b"\n"):
                return
            place += len(line)
            try:
                result = {"program": OLDER, **json.loads(line)}
                yield tuple(result[it] for it in COLUMNS), place
            except (ValueError, KeyError, TypeError):
                raise Fault(f"{path} has a line that `kh-tabulate work` has not written") from None


def is_final(row, words):
    """Whether a result can be no other."""
    return words.program == KH or not row[6].startswith(LIMIT_OF_CUBES)


def done_in(path, words):
    """The status of each final result in a file of lines of JSON, by name, code and field; and the size of its whole lines."""
    known, size = {}, 0
    for row, size in lines_of(path) if os.path.exists(path) else ():
        if is_final(row, words):
            known[row[:3]] = row[3]
    return known, size


def work(words):
    """A part of a list. It may be that none of a part is answered."""
    lists.need(words.list)
    program = program_of(words, 1)
    every = list(dict.fromkeys(lists.links(words.list)))
    known, size = done_in(words.out, words)
    fields = {link: tuple(it for it in words.fields if (*link, it) not in known) for link in every}
    wanted = Counter(known[*link, it] for link in every for it in words.fields if (*link, it) in known)
    tally = Tally(words.list, len(every) * len(words.fields), wanted)
    with open(words.out, "a", encoding="utf-8") as file:
        file.truncate(size)
        try:
            tasks = (Task(link, link[1], rest) for link, rest in fields.items() if rest)
            for it in filter(None, program.answers(run for task in tasks for run in in_runs([task]))):
                tally.add(it)
                if isinstance(it, Lost):
                    tell_lost(it, it.key[0])
                else:
                    file.write(json.dumps(dict(zip(COLUMNS, (*it.key, *it[1:])))) + "\n")
                    file.flush()
        finally:
            tally.tell()
    return tally.status(may_have_none=True)


def store(words):
    """Lines of JSON into a database, some thousands at a time; a result that is told again counts once."""
    for path in words.files:
        next(lines_of(path), None)
    database = open_database(words.results)
    database.execute("create temporary table told (link integer, field integer, status integer, primary key (link, field)) without rowid")
    keeper = Keeper(database)
    for part in in_parts((row for path in words.files for row, _ in lines_of(path)), LINES):
        with together(database):
            for row in part:
                database.execute("insert or replace into told values (?, ?, ?)", (keeper.keep_row(row), row[2], row[3]))
    known = dict(database.execute("select status, count(*) from told group by status"))
    tally = Tally(words.results, sum(known.values()), known)
    tally.tell()
    return tally.status()


def line_of(row):
    """A row as text; a tab of a code is a space."""
    return "\t".join(str(it).replace("\t", " ") for it in row)


def opened_to_write(words):
    """A database whose rows are written, and the links of the list that were chosen, or nothing; where nobody reads on, that ends this
    quietly."""
    signal.signal(signal.SIGPIPE, signal.SIG_DFL)
    database = open_to_read(words.results)
    if not words.chosen:
        return database, None
    chosen = Chosen(database)
    return database, (chosen, chosen.find(lists.links(words.chosen, is_told=False)))


def write(words):
    """A database as text, or the rows of a list."""
    database, chosen = opened_to_write(words)
    of_list = "chosen_links cross join links on links.id = link cross join"
    every = ANSWERED.replace("links cross join", of_list, 1) if chosen else ANSWERED
    if not words.json:
        print(line_of(COLUMNS))
    for row in database.execute(f"select {ROW} from {every} order by {'place' if chosen else 'links.id'}, field"):
        print(json.dumps(dict(zip(COLUMNS, row))) if words.json else line_of(row))
    if chosen:
        there = "select count(*) from chosen_links cross join links on links.id = link where links.code in (select code from answers)"
        missing = chosen[1] + chosen[0].count() - database.execute(there).fetchone()[0]
        if missing:
            print(f"kh-tabulate: of {missing} links of the list there is no row", file=sys.stderr)


def query(words):
    """A ready question to a database, or to the links of a list in it."""
    database, chosen = opened_to_write(words)
    question = queries.QUESTIONS[words.question]
    asked = queries.Asked(database, chosen is not None, words.asked, words.mirror, words.prime)
    counts = Counter()
    print(line_of(question.head_of(asked)))
    for row in question.answer(asked, counts):
        print(line_of(row))
    sys.stdout.flush()
    print("kh-tabulate:", question.closing.format_map(counts), file=sys.stderr)


def rebuild_results(words):
    """A database brought up to this version."""
    print(f"kh-tabulate: {words.results}: the dimensions of {rebuild(words.results)} tables", file=sys.stderr)


def count(text):
    if not text.isdecimal() or int(text) == 0:
        raise argparse.ArgumentTypeError("a number from 1 is wanted")
    return int(text)


def duration(text):
    try:
        seconds = float(text)
    except ValueError:
        seconds = 0
    if not 0 < seconds < threading.TIMEOUT_MAX:
        raise argparse.ArgumentTypeError("a number of seconds above 0 is wanted")
    return seconds


def add_options(parser, is_first):
    """The options, before the command and behind it. Behind it none has a value that was not written, so that those before it stay."""

    def add(name, default, **rest):
        parser.add_argument(name, default=default if is_first else argparse.SUPPRESS, **rest)

    add("--scan", None, metavar="PATH", help="the program; without it crates/scan_main/out/scan_main of this repository")
    add("--kh", None, metavar="PATH", help="that of cubes; without it crates/kh_main/out/kh_main")
    add("--program", SCAN, choices=(SCAN, KH), help="run, work: which of them is asked; without it scan")
    add("--fields", None, help="2, 3, 5, 7, some of them with commas, or all; without it 2, and for query all")
    add("--jobs", os.cpu_count(), type=count, help="run: how many programs at once; without it as many as processors")
    add("--seconds", None, type=duration, help="run, work: a program is ended that has no answer after so long, and the result is missing")
    add("--links", 1000, type=count, help="cut: how many links in a part; without it 1000")
    add("--json", False, action="store_true", help="write: lines of JSON")
    add("--list", None, dest="chosen", metavar="LIST", help="write, query: the links of this list alone")
    add("--mirror", False, action="store_true", help="query same, table: mirror images too")
    add("--prime", None, type=int, choices=queries.FIELDS, help="query torsion: that of this prime")


COMMANDS = (
    ("run", run, "list results", "all of a list, into a database"),
    ("cut", cut, "list folder", "a list into parts"),
    ("work", work, "list out", "a part of a list, into lines of JSON"),
    ("store", store, "results", "lines of JSON into a database"),
    ("write", write, "results", "a database as text"),
    ("query", query, "results", f"a ready question to a database: {', '.join(queries.QUESTIONS)}"),
    ("rebuild", rebuild_results, "results", "a database of an older version brought up to this one"),
)


def parsed():
    parser = argparse.ArgumentParser(description=__doc__, formatter_class=argparse.RawDescriptionHelpFormatter)
    add_options(parser, True)
    commands = parser.add_subparsers(dest="command", required=True)
    for name, call, files, what in COMMANDS:
        command = commands.add_parser(name, help=what, description=what)
        command.set_defaults(call=call)
        add_options(command, False)
        if name == "query":
            command.add_argument("question", choices=queries.QUESTIONS)
        for it in files.split():
            command.add_argument(it)
        if name == "store":
            command.add_argument("files", nargs="+")
    words = parser.parse_args()
    asked = FIELDS if words.fields == "all" else tuple(words.fields.split(",")) if words.fields else ()
    if not set(asked) <= set(FIELDS):
        parser.error("--fields takes 2, 3, 5, 7 or all")
    words.asked = tuple(sorted(set(map(int, asked))))
    words.fields = words.asked or (2,)
    return words


def stopped(number, frame):
    raise KeyboardInterrupt(number)


def main():
    words = parsed()
    for number in (signal.SIGINT, signal.SIGTERM, signal.SIGHUP):
        if signal.getsignal(number) is not signal.SIG_IGN:
            signal.signal(number, stopped)
    try:
        status = words.call(words)
    except KeyboardInterrupt as stop:
        print("\nkh-tabulate: stopped; the same words go on from here", file=sys.stderr)
        sys.exit(128 + stop.args[0])
    except (Fault, OSError, UnicodeDecodeError) as fault:
        sys.exit(f"kh-tabulate: {fault}")
    except sqlite3.Error as fault:
        sys.exit(f"kh-tabulate: {words.results}: {fault}")
    sys.exit(status)
