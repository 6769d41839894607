"""Tables as programs write them, read and written: the dimensions by both degrees, and behind them the polynomial."""
import plain.cube
from plain.answers import ROW


def dimensions(text):
    """The dimensions by both degrees of the rows of a text."""
    return {(int(j), int(i)): int(dimension) for j, i, dimension in ROW.findall(text)}


def table_of(child, words, text):
    """The dimensions by both degrees, and the Jones line, that a program with these words finds."""
    wrote = child.run(words, text.encode()).wrote.decode()
    return dimensions(wrote), wrote.splitlines()[-1:]


def jones_of(table):
    """The Jones line of a table, which is its Euler characteristic."""
    return plain.cube.polynomial_line(plain.cube.characteristic(table))


def written(table, field):
    """What is written of a table over a field: its rows, and the Jones line."""
    return plain.cube.table_text(table, field) + jones_of(table)


def wrong(came, wanted):
    return None if came == wanted else f"{str(came)[:300]} and not {str(wanted)[:300]}"
