"""The rows of all tables, and how each is run: words and an input, where both come from and go to, and what has to come of it."""
import os
import resource
import subprocess
import tempfile
import threading
import time
from dataclasses import dataclass

import rows.bench
import rows.count
import rows.edit
import rows.homology
import rows.input
import rows.jones
import rows.link
import rows.log
import rows.scan
import rows.schedule
import rows.stream
import rows.word
import rows.worker
from rows.texts import HOMOLOGY, JONES, TREFOIL
from shared import stored_links
from shared.places import KH
from shared.running import PATIENCE, Long, begins_in, pieces_of

# Tables of rows, each a name, words, an input, the status and what is written.
ANSWERS = (rows.input, rows.word, rows.homology, rows.jones, rows.count, rows.worker, rows.schedule, rows.bench)
OUT_OF_MEMORY = 5
EXPLAINED = range(1, 8)
NOT_BEGUN = 127
LARGE = "17 crossings"


@dataclass
class Row:
    """A run of the program: words, an input, where input and output are, and what has to come of it."""

    name: str
    words: list
    given: bytes  # (or `Long`)
    status: int
    wrote: bytes
    source: str = "pipe"
    sink: str = "kept"
    sizes: list = None

    def takes_long(self):
        """Whether the row is many runs in little memory, or a large table."""
        return bool(self.sizes) or LARGE in self.name


def answers():
    """The rows on answers of the commands, each of which takes little time."""
    for table in ANSWERS:
        for name, words, given, status, wrote in table.ROWS:
            yield Row(name, words, as_bytes(given), status, wrote.encode())


def all_rows():
    """All rows of the tables."""
    yield from answers()
    for name, words, given, status, wrote in rows.link.ROWS:
        yield Row(f"links: {name}", words, as_bytes(given), status, wrote.encode())
    for name, words, given, status, wrote in rows.log.ROWS:
        yield Row(f"logs: {name}", words, as_bytes(given), status, wrote.encode())
    for name, code, script, status, wrote in rows.edit.ROWS:
        yield Row(f"an edit: {name}", ["edit"], as_bytes(code if script is None else code + ";" + script), status, wrote.encode())
    for name, text, field, wrote in stored_links.tables():
        yield Row(f"{name} over {field} elements", HOMOLOGY + ["--field", field], as_bytes(text), 0, wrote.encode())
    for name, text, wrote in stored_links.polynomials():
        yield Row(f"the polynomial of {name}", JONES, as_bytes(text), 0, wrote.encode())
    for name, words, source, sink, status, wrote in rows.stream.STREAMS:
        yield Row(name, words, TREFOIL.encode(), status, wrote.encode(), source, sink)
    for name, words, given, status, wrote in rows.stream.LITTLE_MEMORY:
        sizes = rows.stream.SIZES_OF_WORKERS if "--workers" in words else rows.stream.SIZES
        yield Row(name, words, as_bytes(given), status, wrote.encode(), source="file", sizes=sizes)


def scan_rows():
    """The rows on words and lists of `kh-scan` alone."""
    for name, words, status, wrote in rows.scan.WORDS:
        yield Row(f"kh-scan, {name}", words, TREFOIL.encode(), status, wrote.encode())
    for name, words, given, frames in rows.scan.LISTS:
        yield Row(f"kh-scan, a list: {name}", words, as_bytes(given), 0, rows.scan.written_of(frames).encode())


def is_plain(row):
    """Whether files of arguments, input and output can have a row, and few bytes do."""
    plain = all(isinstance(it, str) and it and "\n" not in it and it != "{}" for it in row.words)
    return plain and len(row.words) < 100 and len(row.given) < 1_000_000 and not row.sizes and row.source == "pipe"


def as_bytes(text):
    return text if isinstance(text, (bytes, Long)) else text.encode()


class Streams:
    """The input, the output and the limits of a run in a folder."""

    def __init__(self, row, folder, size):
        self.row, self.folder, self.size = row, folder, size
        self.input, self.output, self.errors = self.opened_input(), self.opened_output(), self.file("errors")

    def file(self, name, given=b""):
        """A new file of the folder, which has these bytes."""
        path = os.path.join(self.folder, name)
        with open(path, "wb") as file:
            file.write(given)
        return os.open(path, os.O_RDWR)

    def opened_input(self):
        if self.row.source == "file":
            return self.file("input", self.row.given)
        if self.row.source == "folder":
            return os.open(self.folder, os.O_RDONLY)
        return subprocess.PIPE if self.row.source in ("pipe", "slow") else subprocess.DEVNULL

    def opened_output(self):
        if self.row.sink.startswith("unread"):
            read, write = os.pipe()
            os.close(read)
            return write
        return os.open("/dev/full", os.O_WRONLY) if self.row.sink == "full" else self.file("output")

    def environment(self):
        """The environment of a run: in little memory a small one, since the system takes it from the same space."""
        return {"PATH": os.environ.get("PATH", os.defpath)} if self.size else None

    def limit(self):
        """What is done in the new process before the program begins."""
        if self.row.source == "closed":
            os.close(0)
        if self.row.sink == "closed":
            os.close(1)
        if self.row.sink == "small":
            resource.setrlimit(resource.RLIMIT_FSIZE, (len(self.row.wrote),) * 2)
        if self.size:
            resource.setrlimit(resource.RLIMIT_AS, (self.size * 1024,) * 2)

    def close(self):
        for it in (self.input, self.output, self.errors):
            if it >= 0:
                os.close(it)

    def bytes_of(self, name):
        """What a run has written to a file of the folder."""
        path = os.path.join(self.folder, name)
        if not os.path.exists(path):
            return b""
        with open(path, "rb") as file:
            return file.read()


def feed(pipe, row):
    """Writes the input into the pipe, all at once or byte by byte, until nobody reads on."""
    try:
        if row.source == "slow":
            for byte in row.given:
                pipe.write(bytes([byte]))
                time.sleep(0.002)
        else:
            for piece in pieces_of(row.given):
                pipe.write(piece)
        pipe.close()
    except BrokenPipeError:
        pass


def run(program, row, size=None):
    """Runs the program as the row says, in so many KB, and gives its status, what it wrote, and what it said on standard error."""
    with tempfile.TemporaryDirectory() as folder:
        streams = Streams(row, folder, size)
        started = subprocess.Popen(
            [program, *row.words],
            stdin=streams.input,
            stdout=streams.output,
            stderr=streams.errors,
            cwd=folder,
            env=streams.environment(),
            bufsize=0,
            preexec_fn=streams.limit,
            # (else SIGPIPE and SIGXFSZ are ignored, as in this script)
            restore_signals=row.sink == "unread",
        )
        streams.close()
        if started.stdin:
            threading.Thread(target=feed, args=(started.stdin, row), daemon=True).start()
        try:
            status = started.wait(PATIENCE)
        except subprocess.TimeoutExpired:
            started.kill()
            status = f"none after {PATIENCE} seconds, {started.wait()}"
        return status, streams.bytes_of("output"), streams.bytes_of("errors")


def fault_of(program, row):
    """What is wrong with the row's run, or with one in little memory, if anything is; also where it can not be run."""
    try:
        return fault_of_runs(program, row)
    except (OSError, subprocess.SubprocessError) as stop:
        return f"not run: {stop!r}"


def fault_of_runs(program, row):
    """What is wrong with them, if anything is."""
    wanted = (row.status, row.wrote, b"")
    if not row.sizes:
        came = run(program, row)
        # (`./kh` explains some statuses)
        if program == KH and row.status in EXPLAINED and came[2].startswith(b"kh: "):
            came = (*came[:2], b"")
        return None if came == wanted else f"{came} and not {wanted}"
    seen = set()
    for size in row.sizes:
        if size * 1024 < begins_in(program):
            continue
        came = run(program, row, size)
        seen.add(came[0])
        if came not in (wanted, (OUT_OF_MEMORY, b"", b"")) and came[:2] != (NOT_BEGUN, b""):
            return f"{came} in {size:,} KB, and not {wanted}"
    missing = {row.status, OUT_OF_MEMORY} - seen
    return f"no size came to a status of {missing}" if missing else None
