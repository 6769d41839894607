"""Serves pages on this machine alone, to one who has the token of the session.

A request is refused unless it names this server as its host, comes from no other page, and has the token in its path. All of it is
bounded: its bytes, the seconds in which it has to come, how many there are at a time, and one run of `kh` after another. (`kh-scan` is
asked over all four fields at once.)
"""
import contextlib
import hmac
import http.server
import os
import re
import select
import socket
import sys
import threading
import urllib.parse
from typing import NamedTuple

from ..commands import Unreadable, given
from ..places import DOCS
from . import page_served, page_theorem
from .asking import MOST_BYTES
from .page_html import policy
from .page_session import TURNS, Busy

HOST = "127.0.0.1"
# The most bytes of a form (of a code, as a form has them), the seconds in which a request has to be there, and the most at a time.
MOST_FORM, SECONDS, MOST_AT_A_TIME = 3 * MOST_BYTES + 64, 10, 12
HTML, SVG, TEXT = "text/html; charset=utf-8", "image/svg+xml", "text/plain; charset=utf-8"
FORM = "application/x-www-form-urlencoded"
# What pages may do beside what those that are files may, and what all else may; it stands in the answer's head, and so not in the page's.
OF_PAGES = "form-action 'self'; frame-ancestors 'none'; base-uri 'none'"
OF_OTHERS = "default-src 'none'; style-src 'unsafe-inline'; frame-ancestors 'none'"
HEAD = "<!-- served -->"
OTHER_PAGE = "the request comes from another page: put the address that kh-page has told into a new window"
STEP = re.compile(r"/(\d{1,9})(/move|/turn|/page\.html|/preview/(\d{1,4})\.svg)?")


class Refused(Exception):
    """A request that is not answered: its status, and why."""

    def __init__(self, status, why):
        super().__init__(why)
        self.status, self.why = status, why


class Reply(NamedTuple):
    """What is sent: a status, what kind of text, the text, and more heads."""

    status: int
    kind: str
    text: str
    heads: tuple = ()


class Handler(http.server.BaseHTTPRequestHandler):
    """One request on a connection of its own."""

    server_version, sys_version, protocol_version, timeout = "kh-page", "", "HTTP/1.0", SECONDS
    server: "Server"

    def handle(self):
        # (whoever sends a byte now and then is not waited for)
        self.alarm = threading.Timer(SECONDS, self.cut)
        self.alarm.daemon = True
        self.alarm.start()
        try:
            super().handle()
        except OSError:
            pass
        finally:
            self.alarm.cancel()

    def cut(self):
        with contextlib.suppress(OSError):
            self.connection.shutdown(socket.SHUT_RDWR)

    def is_gone(self):
        """Whether who asked has gone away, as a browser does where the mouse points at another move before the picture of one is there."""
        ready, _, _ = select.select([self.connection], [], [], 0)
        return bool(ready) and self.connection.recv(1, socket.MSG_PEEK) == b""

    def log_message(self, *_):
        """Nothing is told of requests."""

    def do_GET(self):
        self.answered(self.get)

    def do_POST(self):
        self.answered(self.post)

    def answered(self, answer):
        """Sends what answers a request, or why none does. (No other request waits while it is sent.)"""
        try:
            path = self.checked()
            form = self.form() if self.command == "POST" else {}
            self.alarm.cancel()
            with self.server.session as session:
                reply = answer(session, path, form)
        except Refused as stop:
            reply = Reply(stop.status, TEXT, f"{stop.why}\n")
        except Busy:
            reply = Reply(503, TEXT, "another request is still at work\n")
        except Unreadable as fault:
            reply = Reply(400, HTML, page_served.start_page(self.server.base, HEAD, "", str(fault)))
        self.send(reply)

    def checked(self):
        """The path behind the token; anything that does not come from a page of this session is refused."""
        if self.headers.get_all("Host", []) not in [[it] for it in self.server.hosts]:
            raise Refused(403, "this server has another name")
        origin, site = self.headers.get("Origin"), self.headers.get("Sec-Fetch-Site", "none")
        if origin is not None and origin not in [f"http://{it}" for it in self.server.hosts]:
            raise Refused(403, OTHER_PAGE)
        if site not in ("none", "same-origin"):
            raise Refused(403, OTHER_PAGE)
        path = self.path.partition("?")[0]
        token, slash, rest = path[1:].partition("/")
        if not hmac.compare_digest(token.encode(), self.server.token.encode()):
            raise Refused(403, "the token of the session is missing: open the address that kh-page has told")
        return slash + rest

    def form(self):
        """The fields of a form, each once."""
        length, kind = self.headers.get_all("Content-Length", []), self.headers.get("Content-Type", "")
        if len(length) != 1 or not re.fullmatch(r"\d{1,9}", length[0]) or self.headers.get("Transfer-Encoding"):
            raise Refused(411, "the length of the form is missing")
        if int(length[0]) > MOST_FORM:
            raise Refused(413, f"a form has {MOST_FORM} bytes at most")
        if kind.partition(";")[0].strip().lower() != FORM:
            raise Refused(415, "this is no form")
        body = self.rfile.read(int(length[0]))
        if len(body) < int(length[0]):
            raise Refused(400, "the form is cut")
        try:
            return dict(urllib.parse.parse_qsl(body.decode("ascii"), keep_blank_values=True, max_num_fields=4, errors="replace"))
        except ValueError as fault:
            raise Refused(400, "this is no form") from fault

    def step(self, session, path):
        """The step of a path, and what is asked of it."""
        found = STEP.fullmatch(path)
        if not found:
            raise Refused(404, "there is nothing here")
        if int(found[1]) not in session.steps:
            raise Refused(404, "this step is no longer kept: begin anew")
        return int(found[1]), found[2] or "", found[3]

    def get(self, session, path, _):
        """A page, or a picture."""
        base = self.server.base
        if path in ("", "/"):
            return Reply(200, HTML, page_served.start_page(base, HEAD))
        if path == "/example.svg":
            return Reply(200, SVG, session.picture(page_served.TREFOIL))
        if path == "/theorem":
            return Reply(200, HTML, page_theorem.theorem_page(base, HEAD))
        if path[1:] in page_theorem.pictures():
            return Reply(200, SVG, given([os.path.join(DOCS, path[1:])]))
        number, what, move = self.step(session, path)
        if what == "":
            return Reply(200, HTML, page_served.step_page(session, base, number, HEAD))
        if what == "/page.html":
            return Reply(200, HTML, page_served.saved_page(session, number), (("Content-Disposition", 'attachment; filename="link.html"'),))
        moves = session.moves_of(session.steps[number].code) if move else []
        if not move or int(move) >= len(moves):
            raise Refused(404, "there is nothing here")
        if self.is_gone():
            raise Refused(410, "nobody waits for this picture")
        return Reply(200, SVG, session.preview(number, moves[int(move)]))

    def post(self, session, path, form):
        """Makes a step of a form, and leads to it."""
        if path == "/code":
            return self.typed(session, form.get("text") or form.get("typed", ""))
        number, what, _ = self.step(session, path)
        if what == "/turn" and form.get("word") in TURNS:
            return self.lead(session.turned(number, form["word"]))
        if what != "/move":
            raise Refused(404, "there is nothing here")
        step, answer = session.moved(number, form.get("line", ""))
        if step is None:
            return Reply(400, HTML, page_served.step_page(session, self.server.base, number, HEAD, answer))
        return self.lead(step)

    def typed(self, session, text):
        """The step of a text, or the page that says what is wrong with it."""
        if len(text.encode()) > MOST_BYTES:
            raise Refused(413, f"a code has {MOST_BYTES} bytes at most")
        try:
            return self.lead(session.typed(text))
        except Unreadable as fault:
            return Reply(400, HTML, page_served.start_page(self.server.base, HEAD, text, str(fault)))

    def lead(self, number):
        return Reply(303, TEXT, "", (("Location", f"{self.server.base}/{number}"),))

    def send(self, reply):
        body, is_page = reply.text.encode(), reply.kind == HTML
        heads = {
            "Content-Type": reply.kind, "Content-Length": str(len(body)), "Cache-Control": "no-store", "X-Content-Type-Options": "nosniff",
            "Referrer-Policy": "same-origin", "Cross-Origin-Resource-Policy": "same-origin", "Cross-Origin-Opener-Policy": "same-origin",
            "Content-Security-Policy": f"{policy(True)}; {OF_PAGES}" if is_page else OF_OTHERS,
        }
        self.send_response(reply.status)
        for name, value in [*heads.items(), *reply.heads]:
            self.send_header(name, value)
        self.end_headers()
        self.wfile.write(body)


class Server(http.server.ThreadingHTTPServer):
    """A server of one session."""

    daemon_threads, allow_reuse_address, request_queue_size = True, True, 32

    def __init__(self, session, token, port):
        self.session, self.token = session, token
        self.room = threading.BoundedSemaphore(MOST_AT_A_TIME)
        super().__init__((HOST, port), Handler)
        self.hosts = [f"{name}:{self.server_port}" for name in (HOST, "localhost")]
        self.base = f"/{token}"

    def address(self):
        return f"http://{HOST}:{self.server_port}{self.base}/"

    def process_request(self, request, client_address):
        """Begins to answer a request, or closes it where there are too many."""
        if self.room.acquire(blocking=False):
            super().process_request(request, client_address)
        else:
            self.shutdown_request(request)

    def process_request_thread(self, request, client_address):
        try:
            super().process_request_thread(request, client_address)
        finally:
            self.room.release()

    def handle_error(self, request, client_address):
        """A client that goes away is no fault worth telling."""
        if not isinstance(sys.exc_info()[1], OSError):
            super().handle_error(request, client_address)
