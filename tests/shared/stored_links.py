"""The links of `tests/data`: texts, tables and polynomials, which other programs have found."""
import os

from shared.places import DATA, read_text


def blocks_of(name):
    """The lines of each link of a file, which says at its head where they come from."""
    return [block.strip().splitlines() for block in read_text(os.path.join(DATA, name)).split("\n\n")[1:]]


def texts(name):
    """The texts of a file of links, by their names."""
    return {head.split(":")[0]: text for head, text, *_ in blocks_of(name)}


def polynomials():
    """The name, the text and the Jones line of each link of `polynomials.txt`."""
    for head, text, jones in blocks_of("polynomials.txt"):
        yield head.split(":")[0], text, jones + "\n"


def tables():
    """The name, the text, the field and the table of each link and field of `tables.txt` and `large_tables.txt`."""
    for head, text, *lists, jones in blocks_of("tables.txt") + blocks_of("large_tables.txt"):
        for line in lists:
            field, table = line.split(": ")
            lines = ["j {} i {} dim {}\n".format(*row.split(",")) for row in table.split()]
            yield head.split(":")[0], text, field, f"table 2\nfield {field}\n" + "".join(lines) + jones + "\n"
