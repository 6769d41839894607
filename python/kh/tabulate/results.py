"""The database of `kh-tabulate`: each code once, the names that it has, and for each field one answer, whose table stands once as well.

| Table | A row is |
|---|---|
| `codes` | a code: `id`, `code` |
| `links` | a name of a code: `id`, `name`, `code` (its `id`) |
| `answers` | of a code over a field: `code`, `field`, `status`, `table_id` (where there is a table), `refusal`, `seconds`, `program` |
| `tables` | a table with its Jones line, which links share: `id`, `table_rows`, `jones` |
| `degrees` | a dimension of a table: `table_id`, `j`, `i`, `dim` |

The views `results` and `dimensions` put these together, a row for each link and field, and for each of its dimensions. What follows from
something else changes with it or not at all, whatever is killed.
"""
import contextlib
import os
import pathlib
import sqlite3

from ..tables import of_short_rows

COLUMNS = ("name", "code", "field", "status", "table_rows", "jones", "refusal", "seconds", "program")
LISTED = ", ".join(COLUMNS)
# What results of an older version, which do not say their program, were made by.
OLDER = "kh"
# The number that a database of this version has (`pragma user_version`); older ones have 0.
VERSION = 3
# Rows of links in their order with their answers: they are walked so, and never sorted.
ANSWERED = """
    links cross join codes on codes.id = links.code cross join answers on answers.code = codes.id left join tables on tables.id = table_id
"""
ROW = "name, codes.code, field, status, coalesce(table_rows, ''), coalesce(jones, ''), refusal, seconds, program"
SCHEMA = (
    "create table codes (id integer primary key, code text not null unique)",
    "create table links (id integer primary key, name text not null, code integer not null, unique (code, name))",
    "create index links_by_name on links (name)",
    "create table tables (id integer primary key, table_rows text not null, jones text not null, unique (table_rows, jones))",
    "create table degrees (table_id integer, j integer, i integer, dim integer, primary key (table_id, j, i)) without rowid",
    """
    create table answers (
        code integer, field integer, status integer not null, table_id integer, refusal text not null, seconds real, program text,
        primary key (code, field)
    ) without rowid
    """,
    "create index answers_by_table on answers (table_id)",
    """
    create view results as
    select links.id as link, name, codes.code as code, field, status, coalesce(table_rows, '') as table_rows, coalesce(jones, '') as jones,
        refusal, seconds, program
    from links join codes on codes.id = links.code join answers on answers.code = links.code left join tables on tables.id = table_id
    """,
    """
    create view dimensions as
    select links.id as link, name, field, j, i, dim
    from links join answers on answers.code = links.code join degrees on degrees.table_id = answers.table_id
    """,
    """
    create trigger dropped_results instead of delete on results begin
        delete from answers where field = old.field and code = (select id from codes where code = old.code);
    end
    """,
)
# The seconds that a write waits for those who read a large database, and the kilobytes of it that are held in memory.
PATIENCE, HELD = 300, 20_000
# How many tables are remembered under their numbers.
REMEMBERED = 4_096


class Fault(Exception):
    """What is missing or wrong."""


def connected(path, **options):
    database = sqlite3.connect(path, PATIENCE, isolation_level=None, **options)
    database.execute(f"pragma cache_size = -{HELD}")
    return database


def open_database(path):
    """A database to write to, made where there is none; one of an older version is brought up to this one."""
    database = connected(path)
    if version_of(database, path) != VERSION:
        with together(database):
            # (another process may have been faster)
            if version_of(database, path) != VERSION:
                set_up(database, path)
    return database


def open_to_read(path):
    """A database that is there, and of this version."""
    if not os.path.isfile(path):
        raise Fault(f"there is no database {path}")
    database = connected(pathlib.Path(path).absolute().as_uri() + "?mode=rw", uri=True)
    if version_of(database, path) != VERSION:
        raise Fault(f"{path} is a database of an older version: kh-tabulate rebuild {path} brings it up to this one, and keeps its results")
    return database


def version_of(database, path):
    """The version of a database, 0 for an older or an empty one."""
    version = database.execute("pragma user_version").fetchone()[0]
    if version > VERSION:
        raise Fault(f"{path} is a database of a newer version of kh-tabulate")
    return version


@contextlib.contextmanager
def together(database):
    """All that is done here is kept, or nothing of it."""
    database.execute("begin immediate")
    with database:
        yield


def set_up(database, path):
    """Makes the tables; the results of an older version are put into them, in their order."""
    there = {name for name, in database.execute("select name from sqlite_master where type = 'table'")}
    if there and "results" not in there:
        raise Fault(f"{path} is no database of kh-tabulate")
    if there:
        database.execute("alter table results rename to older_results")
        database.execute("drop trigger if exists dimensions_of_dropped")
        database.execute("drop table if exists dimensions")
    for statement in SCHEMA:
        database.execute(statement)
    database.execute(f"pragma user_version = {VERSION}")
    if there:
        keeper = Keeper(database)
        for row in database.execute(f"select {older_columns(database)} from older_results order by rowid"):
            keeper.keep_row(row)
        database.execute("drop table older_results")


def older_columns(database):
    """The columns of results of an older version, which may have no programs."""
    has_programs = database.execute("select count(*) from pragma_table_info('older_results') where name = 'program'").fetchone()[0]
    return LISTED if has_programs else LISTED.replace("program", f"'{OLDER}'")


def text_of(dimensions):
    """The text of a table."""
    return "; ".join(f"{j} {i} {dimension}" for (j, i), dimension in sorted(dimensions.items()))


class Keeper:
    """Puts codes, their names and what was answered into a database, each once; and remembers the last code and some tables."""

    def __init__(self, database):
        self.database, self.last, self.tables = database, (None, None), {}

    def code(self, code):
        """The number of a code."""
        if self.last[0] != code:
            self.database.execute("insert or ignore into codes (code) values (?)", (code,))
            self.last = code, self.database.execute("select id from codes where code = ?", (code,)).fetchone()[0]
        return self.last[1]

    def link(self, name, code):
        """The number of a name of the code of this number."""
        self.database.execute("insert or ignore into links (name, code) values (?, ?)", (name, code))
        return self.database.execute("select id from links where code = ? and name = ?", (code, name)).fetchone()[0]

    def table(self, text, jones):
        """The number of a table with its Jones line."""
        if (text, jones) not in self.tables:
            added = self.database.execute("insert or ignore into tables (table_rows, jones) values (?, ?)", (text, jones)).rowcount
            number = self.database.execute("select id from tables where table_rows = ? and jones = ?", (text, jones)).fetchone()[0]
            if added:
                add_degrees(self.database, number, text)
            if len(self.tables) >= REMEMBERED:
                self.tables.clear()
            self.tables[text, jones] = number
        return self.tables[text, jones]

    def keep(self, code, answer):
        """An answer to the code of this number, in place of the one that there was over its field."""
        field, status, text, jones, refusal, seconds, program = answer
        number = None if status else self.table(text, jones)
        row = code, field, status, number, refusal, seconds, program
        self.database.execute("insert or replace into answers values (?, ?, ?, ?, ?, ?, ?)", row)

    def keep_row(self, row):
        """A result with its name and code, in the order of the columns; the number of its link."""
        code = self.code(row[1])
        link = self.link(row[0], code)
        self.keep(code, row[2:])
        return link


def add_degrees(database, number, text):
    try:
        rows = [(number, j, i, dimension) for (j, i), dimension in of_short_rows(text).items()]
    except ValueError:
        raise Fault(f"this is no table: {text[:80]}") from None
    database.executemany("insert into degrees values (?, ?, ?, ?)", rows)


def rebuild(path):
    """Brings a database up to this version, makes its degrees anew, and drops what nothing refers to; it answers of how many tables."""
    if not os.path.isfile(path):
        raise Fault(f"there is no database {path}")
    database = open_database(path)
    with together(database):
        database.execute("delete from tables where id not in (select table_id from answers where table_id is not null)")
        database.execute("delete from links where code not in (select code from answers)")
        database.execute("delete from codes where id not in (select code from links)")
        database.execute("delete from degrees")
        count = 0
        for number, text in database.execute("select id, table_rows from tables"):
            add_degrees(database, number, text)
            count += 1
    return count
