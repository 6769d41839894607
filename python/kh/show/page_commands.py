"""The commands that make pages: `show/page` writes one, and `kh-page` serves them."""
import argparse
import os
import resource
import secrets
import signal

from ..commands import Unreadable, command, given, reader
from ..programs import end_all
from .asking import KH, Kh
from .page_html import page_of
from .page_server import Server
from .page_session import Session
from .sheet import sheet_of

# The seconds and the bytes of memory that a run of a served page may take.
SECONDS, MEMORY = 60, 2 * 1024 * 1024 * 1024


@command
def page():
    """Makes a page of a code for a class: one file of HTML, with the drawing, the tables, the polynomials and the cube of states.

        show/page examples/trefoil.pd > trefoil.html
        tools/kh-codes --link 8_19 | show/page --title 8_19 > 8_19.html

    The file has all that it shows, and opens in a browser without a server. A state, a cell of a table or a crossing is chosen by a click,
    or from the keyboard; without JavaScript the same stands in lists. Tables are what `kh-scan` answers, or `kh` where that is not built;
    all else is what `kh` answers. States and edges are drawn up to six crossings. The code is one that `kh` reads; `tools/kh-codes` makes
    one of other forms. `./kh-page` serves such pages, for codes that are typed and for moves.
    """
    parser = reader(page.__doc__)
    parser.add_argument("--title", metavar="TEXT", help="instead of the file's name")
    with_programs(parser)
    parser.add_argument("file", nargs="?", help="instead of standard input")
    words = parser.parse_args()
    kh = Kh(words.kh, scan=words.scan)
    text = given([words.file] if words.file else [])
    print(page_of(sheet_of(kh, text, words.title or name_of(words.file))), end="")


def with_programs(parser):
    """The options that name the programs."""
    parser.add_argument("--kh", metavar="PATH", default=KH, help="the program, instead of ./kh")
    parser.add_argument("--scan", metavar="PATH", help="that of scans, instead of the one that ./build makes")


def name_of(path):
    """The name of a file without its folder and its ending, if there is one."""
    return os.path.splitext(os.path.basename(path or ""))[0]


def server_of(words):
    """A server, and the address to open."""
    session = Session(Kh(words.kh, SECONDS, words.scan))
    stop = session.is_ready()
    if stop:
        raise Unreadable(f"{words.kh} gives no answer: {stop.strip()}")
    number = session.typed(given([words.file]), name_of(words.file)) if words.file else None
    server = Server(session, words.token or secrets.token_urlsafe(18), words.port)
    return server, server.address() + (str(number) if number else "")


@command
def serve():
    """Serves pages of knots and links to this machine's browser: for codes that one types, and for moves that one makes by hand.

        ./kh-page
        ./kh-page examples/trefoil.pd
        ./kh-page --port 8017

    It tells an address, with the token of the session, to open in a browser on this machine; others can not reach it. A page has all that
    `show/page` writes, a form for codes in any form that `tools/kh-codes` reads, and the moves that the diagram accepts, with undo and
    redo. Tables are those of `kh-scan`, or of `kh` where that is not built; all else is answered by `kh`, each in a run that is bounded in
    time and memory. Control-C ends it.
    """
    parser = reader(serve.__doc__)
    parser.add_argument("--port", type=int, default=0, help="a port of this machine, instead of any that is free")
    with_programs(parser)
    parser.add_argument("--token", help=argparse.SUPPRESS)
    parser.add_argument("file", nargs="?", help="a code to begin with")
    words = parser.parse_args()
    hard = resource.getrlimit(resource.RLIMIT_AS)[1]
    memory = MEMORY if hard == resource.RLIM_INFINITY else min(MEMORY, hard)
    resource.setrlimit(resource.RLIMIT_AS, (memory, memory))
    for number in (signal.SIGINT, signal.SIGTERM):
        signal.signal(number, signal.default_int_handler)
    try:
        server, address = server_of(words)
        print(f"kh-page: open {address}\nkh-page: Control-C ends it", flush=True)
        with server:
            server.serve_forever()
    except OverflowError as fault:
        raise Unreadable(str(fault)) from fault
    except KeyboardInterrupt:
        print()
    finally:
        end_all()
