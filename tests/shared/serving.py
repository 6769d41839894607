"""Begins `kh-page`, asks it in bytes as any client could, and ends it."""
import os
import re
import signal
import socket
import subprocess
import urllib.parse

from shared.places import TOP

KH_PAGE = os.path.join(TOP, "kh-page")
ADDRESS = re.compile(r"kh-page: open http://127\.0\.0\.1:(\d+)/([\w-]+)/(\d*)\n")
SECONDS = 120


class Answer:
    """What was sent back: the status, 0 where there is none; the heads, in small letters; the text."""

    def __init__(self, wrote):
        head, _, body = wrote.partition(b"\r\n\r\n")
        first, *lines = head.decode("latin-1").split("\r\n")
        found = re.match(r"HTTP/1\.\d (\d{3}) ", first)
        self.status = int(found[1]) if found else 0
        self.heads = {name.lower(): value.strip() for name, _, value in (line.partition(":") for line in lines)}
        self.text = body.decode(errors="replace")


class Serving:
    """A server on a port of its own. It is ended behind a `with`."""

    def __init__(self, program, *words):
        path = [KH_PAGE, "--kh", os.path.abspath(program), *words]
        self.process = subprocess.Popen(path, stdin=subprocess.DEVNULL, stdout=subprocess.PIPE, stderr=subprocess.PIPE, text=True)
        found = ADDRESS.fullmatch(self.process.stdout.readline())
        if not found:
            self.process.kill()
            raise ValueError(f"kh-page told no address: {self.process.communicate()[1]}")
        self.port, self.token, self.first = int(found[1]), found[2], found[3]

    def __enter__(self):
        return self

    def __exit__(self, *_):
        if self.process.poll() is None:
            self.process.kill()
        self.process.wait()
        self.process.stdout.close(), self.process.stderr.close()

    def address(self, path=""):
        return f"http://127.0.0.1:{self.port}/{self.token}/{path}"

    def connected(self, seconds=SECONDS):
        return socket.create_connection(("127.0.0.1", self.port), timeout=seconds)

    def sent(self, given, is_cut=False):
        """What answers these bytes; where they are cut, the client says that no more come."""
        with self.connected() as connection:
            wrote = b""
            try:
                connection.sendall(given)
                if is_cut:
                    connection.shutdown(socket.SHUT_WR)
                while part := connection.recv(1 << 16):
                    wrote += part
            except (ConnectionResetError, BrokenPipeError):
                pass
            return Answer(wrote)

    def head(self, method, path, heads=(), host=None):
        """The head of a request."""
        lines = [f"{method} {path} HTTP/1.1", f"Host: {host or f'127.0.0.1:{self.port}'}", *(f"{name}: {value}" for name, value in heads)]
        return "\r\n".join([*lines, "", ""]).encode("latin-1")

    def get(self, path, heads=(), host=None, method="GET"):
        return self.sent(self.head(method, f"/{self.token}/{path}", heads, host))

    def post(self, path, form, heads=()):
        """What answers a form, sent as a page of the session does."""
        body = urllib.parse.urlencode(form).encode()
        kind = [("Content-Type", "application/x-www-form-urlencoded"), ("Content-Length", len(body))]
        return self.sent(self.head("POST", f"/{self.token}/{path}", [*kind, *heads]) + body)

    def step(self, text):
        """The number of the step of a text that is typed."""
        answer = self.post("code", {"text": text})
        return answer.heads["location"].rpartition("/")[2] if answer.status == 303 else None

    def interrupted(self):
        """The status with which it ends on Control-C, and what it said."""
        self.process.send_signal(signal.SIGINT)
        try:
            _, said = self.process.communicate(timeout=SECONDS)
        except subprocess.TimeoutExpired:
            return None, "it goes on"
        return self.process.returncode, said
