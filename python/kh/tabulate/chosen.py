"""The links of a list in a database, each once and in the order of the list, however long it is: they stand in temporary tables of the
database, and not in memory.
"""
from .results import Keeper, together

# How many lines of a list are taken at once, and how many codes.
LINES, CODES = 5_000, 500
# Of a link: its place in the list and its number. Of a code: its place, its number, and how many links of the list have it.
TEMPORARY = (
    "create temporary table chosen_links (place integer primary key, link integer not null unique)",
    "create temporary table chosen_codes (place integer primary key, code integer not null unique, links integer not null)",
)
ADDED = "insert into chosen_codes (code, links) values (?, 1) on conflict (code) do update set links = links + 1"
LINK = "select links.id, codes.id from codes join links on links.code = codes.id where codes.code = ? and name = ?"


def in_parts(items, size):
    """Lists of so many items, one after another."""
    part = []
    for it in items:
        part.append(it)
        if len(part) == size:
            yield part
            part = []
    if part:
        yield part


class Chosen:
    """The links of a list."""

    def __init__(self, database):
        self.database = database
        for statement in TEMPORARY:
            database.execute(statement)

    def enter(self, links):
        """Takes the links of a list, those that the database has not into it too."""
        keeper = Keeper(self.database)
        for part in in_parts(links, LINES):
            with together(self.database):
                for name, code in part:
                    number = keeper.code(code)
                    self.add(keeper.link(name, number), number)

    def find(self, links):
        """Takes those links of a list that the database has; how many it has not."""
        missing = 0
        for part in in_parts(links, LINES):
            with self.database:
                self.database.execute("begin")
                for name, code in part:
                    found = self.database.execute(LINK, (code, name)).fetchone()
                    missing += not found
                    if found:
                        self.add(*found)
        return missing

    def add(self, link, code):
        if self.database.execute("insert or ignore into chosen_links (link) values (?)", (link,)).rowcount:
            self.database.execute(ADDED, (code,))

    def count(self):
        """How many links there are."""
        return self.database.execute("select count(*) from chosen_links").fetchone()[0]

    def known(self, fields, final):
        """How many results there are over these fields that are final, an SQL condition, by their statuses."""
        marks = ", ".join("?" * len(fields))
        answers = "chosen_codes cross join answers on answers.code = chosen_codes.code"
        every = f"select status, sum(links) from {answers} where field in ({marks}) and {final} group by status"
        return dict(self.database.execute(every, fields))

    def open_codes(self, fields, final):
        """Lists of codes in the order of the list: the number of each, how many links have it, the code, and the fields that it lacks."""
        place = 0
        codes = "select place, codes.id, links, codes.code from chosen_codes cross join codes on codes.id = chosen_codes.code"
        answers = f"select answers.code, field from chosen_codes cross join answers on answers.code = chosen_codes.code where {final}"
        while True:
            part = self.database.execute(f"{codes} where place > ? order by place limit ?", (place, CODES)).fetchall()
            if not part:
                return
            known = set(self.database.execute(f"{answers} and place > ? and place <= ?", (place, part[-1][0])))
            place = part[-1][0]
            yield [(number, links, code, [it for it in fields if (number, it) not in known]) for _, number, links, code in part]
