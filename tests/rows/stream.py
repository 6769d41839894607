"""The rows of `tests/program` on where the input comes from and the output goes, and on little memory."""
from rows.texts import HOMOLOGY, TREFOIL, TREFOIL_TABLE, USAGE, padded

# Where the input comes from and the output goes, and what the trefoil comes to: name, words, input, output, status, what is
# written where that can be seen.
STREAMS = [
    ("an input byte by byte", HOMOLOGY, "slow", "kept", 0, TREFOIL_TABLE),
    ("an input from a file", HOMOLOGY, "file", "kept", 0, TREFOIL_TABLE),
    ("an input that is closed", HOMOLOGY, "closed", "kept", 3, ""),
    ("an input that is a folder", HOMOLOGY, "folder", "kept", 3, ""),
    ("no command and an input that is a folder", [], "folder", "kept", 2, USAGE),
    ("an output that is closed", HOMOLOGY, "file", "closed", 4, ""),
    ("an output that is full", HOMOLOGY, "file", "full", 4, ""),
    ("an output with room for 12 bytes", HOMOLOGY, "file", "small", 4, TREFOIL_TABLE[:12]),
    ("an output that nobody reads", HOMOLOGY, "file", "unread", 4, ""),
    ("an output that nobody reads, SIGPIPE ignored", HOMOLOGY, "file", "unread, no signal", 4, ""),
    ("no command and an output that is full", [], "file", "full", 4, ""),
]

# Inputs that are tried in each of these sizes of the address space, in KB, from that on in which the system begins the program. Where
# its loader finds what it needs, it writes the whole answer, or, out of memory, nothing and ends with 5; at some size each of the two
# has to come.
LITTLE_MEMORY = [
    ("the trefoil, in little memory", HOMOLOGY, TREFOIL, 0, TREFOIL_TABLE),
    ("65,536 bytes, in little memory", HOMOLOGY, padded(TREFOIL, 65_536), 0, TREFOIL_TABLE),
    ("no command, in little memory", [], TREFOIL, 2, USAGE),
    ("the trefoil by four workers, in little memory", HOMOLOGY + ["--workers", "4"], TREFOIL, 0, TREFOIL_TABLE),
]
SIZES = [*range(2_000, 12_000, 25)]
# (with room for the stacks of one thread, of two and of all)
SIZES_OF_WORKERS = [*SIZES, *range(12_000, 80_000, 250)]
