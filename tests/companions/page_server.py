"""Tries `kh-page` as a server: what it answers to codes and moves, and that nothing else gets through: other hosts, other pages, requests
that are long, cut, slow or many.

`tests/program` runs these behind its rows.
"""
import contextlib
import itertools
import os
import socket
import tempfile
import threading
import time

from rows.texts import TREFOIL
from shared import documents
from shared.places import TOP, read_text, write_text
from shared.running import ended
from shared.serving import KH_PAGE, Serving
from shared.waiting import is_living, wait_for

# Texts that are typed, and what stands on the page behind them: its heading and a sentence.
TYPED = [
    ("a planar diagram", TREFOIL, "A diagram", "3 crossings (0 positive, 3 negative)"),
    ("a named code", "mine: " + TREFOIL, "mine", "3 crossings (0 positive, 3 negative)"),
    ("a braid", "braid: 1 1 1", "A diagram", "a braid word, closed on 2 strands"),
    ("a name", "4_1", "4_1", "4 crossings (2 positive, 2 negative)"),
    ("a torus knot", "T(3,4)", "T(3,4)", "8 crossings (8 positive, 0 negative)"),
    ("a DT code", "DT: [(4, 6, 2)]", "A diagram", "3 crossings (3 positive, 0 negative)"),
    ("JSON", "[[1,4,2,5],[3,6,4,1],[5,2,6,3]]", "A diagram", "3 crossings (0 positive, 3 negative)"),
    ("a loop", "unknot", "unknot", "1 loop"),
    ("crossings alone", "X[1,4,2,5], X[3,6,4,1], X[5,2,6,3]", "A diagram", "PD[X[1, 4, 2, 5], X[3, 6, 4, 1], X[5, 2, 6, 3]]"),
    ("crossings in lines", "X[1,4,2,5]\nX[3,6,4,1]\n X[5,2,6,3]\n", "A diagram", "3 crossings"),
    ("what is said of a line", "DT: 4 6 2", "A diagram", '<p class="note said">a DT code: the mirror image'),
    ("a long name", "n" * 300 + ": 4_1", "n" * 80, "4 crossings"),
    ("two codes", TREFOIL + "\n4_1", "A diagram", "Of 2 codes the first is shown."),
    ("a code with a tag in its name", "<script>alert(1)</script>: 4_1", "<script>alert(1)</script>", "4 crossings"),
]
# Texts that are no codes, and what is said, with a caret below the place where there is one.
WRONG = [
    ("a letter that is none", "braid: 1 1 x", "a letter of a braid is a number\n  braid: 1 1 x\n             ^"),
    ("a crossing of three arcs", "PD[X[1,4,2]]", "a crossing has four arcs, and this one has 3\n  PD[X[1,4,2]]\n     ^"),
    ("crossings alone, one of three arcs", "X[1,4,2]", "a crossing has four arcs, and this one has 3\n  PD[X[1,4,2]]\n     ^"),
    ("a virtual trefoil", "PD[X[3,1,4,2], X[4,2,1,3]]", "refused checkerboard at arc 2"),
    ("a name that is none", "8_77", "the reference has no link of this name"),
    ("nothing", "", "there is no code in this text"),
    ("blanks", " \n ", "there is no code in this text"),
    ("a tag", "<b>&amp;", "<b>&amp;"),
    ("words for a shell", "$(touch /tmp/x); `id` | true", "^"),
    ("too many crossings", "T(2,25)", "20"),
    ("many brackets", "[" * 60_000, "no code has so many brackets in one another"),
]
# Lines that are no moves.
NO_MOVES = ["r1 add 1 under plus; touch x", "homology", "r3 1 2 3\nr1 drop 1", "", "undo ", "r1 add 1111 under plus", "look 1 1", "--help"]
HEADS = {
    "content-security-policy": "frame-ancestors 'none'", "x-content-type-options": "nosniff", "cache-control": "no-store",
    "referrer-policy": "same-origin", "cross-origin-resource-policy": "same-origin",
}


def typed_fault(serving, text, title, sentence):
    step = serving.step(text)
    answer = serving.get(step) if step else serving.post("code", {"text": text})
    if answer.status != 200:
        return f"{answer.status}: {answer.text[:300]}"
    root = documents.read(answer.text)
    return None if root.one("h1").text() == title and sentence in answer.text else f"{root.one('h1').text()}"


def wrong_fault(serving, text, said):
    answer = serving.post("code", {"text": text})
    root = documents.read(answer.text)
    told = "".join(root.one("div", class_="fault").texts()) if answer.status == 400 else ""
    kept = "".join(root.one("textarea").texts()) if told else None
    return None if said in told and kept == text else f"{answer.status}, {kept!r}: {told}"


def moved_fault(serving):
    """A move, undo and redo lead to other steps, and back to the same codes; the page says what did not change."""
    first = serving.step(TREFOIL)
    lines, codes = ["r2 add 1 left 3 left", "undo", "redo", "r2 drop 4 5", "undo"], []
    step = first
    for line in lines:
        answer = serving.post(f"{step}/move", {"line": line})
        if answer.status != 303:
            return f"{line}: {answer.status}"
        step = answer.heads["location"].rpartition("/")[2]
        page = documents.read(serving.get(step).text)
        told = page.one("div", id="unchanged").text()
        codes.append(page.one("p", class_="code").text())
        if "The Jones polynomial is the same" not in told or "computed anew, is the same" not in told:
            return told
    if not codes[0] == codes[2] == codes[4] != codes[1] == codes[3]:
        return f"{codes}"
    script = "".join(page.one("pre", id="script").texts())
    wanted = "PD[X[1, 4, 2, 5], X[3, 6, 4, 1], X[5, 2, 6, 3]];\n" + "\n".join(lines)
    refused = serving.post(f"{first}/move", {"line": "r3 1 2 3"})
    return None if script == wanted and refused.status == 400 and "refused heights" in refused.text else f"{script}, {refused.status}"


def buttons_fault(serving):
    """Undo and redo can be pressed where there is something to undo and to redo."""
    step = serving.step(TREFOIL)

    def state(number):
        page = documents.read(serving.get(number).text)
        return ["disabled" in page.one("button", value=word).attributes for word in ("undo", "redo")]

    made = serving.post(f"{step}/move", {"line": "r1 add 1 under plus"}).heads["location"].rpartition("/")[2]
    back = serving.post(f"{made}/move", {"line": "undo"}).heads["location"].rpartition("/")[2]
    found = [state(it) for it in (step, made, back)]
    return None if found == [[True, True], [False, True], [True, False]] else f"{found}"


def turned_fault(serving):
    """The mirror image is another step, with the crossings of the other sign; other words lead nowhere."""
    step = serving.step(TREFOIL)
    made = serving.post(f"{step}/turn", {"word": "mirror"}).heads["location"].rpartition("/")[2]
    page = serving.get(made).text
    other = serving.post(f"{step}/turn", {"word": "bench"}).status
    return None if "3 crossings (3 positive, 0 negative)" in page and other == 404 else f"{other}"


def files_fault(serving):
    """What is saved is the page of a file; a picture shows what a move makes."""
    step = serving.step(TREFOIL)
    saved, picture = serving.get(f"{step}/page.html"), serving.get(f"{step}/preview/0.svg")
    right = saved.status == 200 and "attachment" in saved.heads["content-disposition"] and not list(documents.read(saved.text).all("form"))
    example = serving.get("example.svg")
    right = right and example.status == 200 and example.text.count('class="arc ') == 6 and example.text.count('class="crossing ') == 3
    right = right and picture.status == 200 and picture.heads["content-type"] == "image/svg+xml" and picture.text.startswith("<svg")
    return None if right and serving.get(f"{step}/preview/9999.svg").status == 404 else f"{saved.status}, {picture.status}"


def heads_fault(serving):
    """What answers say to the browser: nothing of it is for other pages."""
    answer = serving.get(serving.step(TREFOIL))
    lacking = [name for name, value in HEADS.items() if value not in answer.heads.get(name, "")]
    policy = answer.heads["content-security-policy"]
    is_closed = "default-src 'none'" in policy and "access-control-allow-origin" not in answer.heads
    return None if not lacking and is_closed else f"{lacking}, {policy}"


LINE, FORM = b"line=r1+add+1+under+plus", "application/x-www-form-urlencoded"


def posted(serving, step, length, body, kind=FORM, heads=(), path="move"):
    """The bytes of a form for a step."""
    heads = [("Content-Type", kind), ("Content-Length", length), *heads]
    return serving.head("POST", f"/{serving.token}/{step}/{path}", heads) + body


def strange_hosts(serving, step):
    """Requests under another name, without the token, and from other pages: what they are, their bytes, whether they are cut, and their
    status."""
    own, token = f"127.0.0.1:{serving.port}", serving.token
    yield "no host", f"GET /{token}/ HTTP/1.1\r\n\r\n".encode(), False, 403
    yield "another host", serving.head("GET", f"/{token}/", host="example.org"), False, 403
    yield "another host with this port", serving.head("GET", f"/{token}/", host=f"example.org:{serving.port}"), False, 403
    yield "this host without a port", serving.head("GET", f"/{token}/", host="127.0.0.1"), False, 403
    yield "two hosts", serving.head("GET", f"/{token}/", [("Host", "example.org")]), False, 403
    yield "an address of another host", serving.head("GET", f"http://example.org/{token}/"), False, 403
    yield "no token", serving.head("GET", "/"), False, 403
    yield "a step without the token", serving.head("GET", f"/{step}"), False, 403
    yield "half of the token", serving.head("GET", f"/{token[:-1]}/"), False, 403
    yield "a token with more", serving.head("GET", f"/{token}x/"), False, 403
    yield "a token of other letters", "GET /\u00e9/ HTTP/1.1\r\nHost: {}\r\n\r\n".format(own).encode("latin-1"), False, 403
    for name, heads in (
        ("another page", [("Origin", "http://example.org")]), ("a page of nowhere", [("Origin", "null")]),
        ("another port", [("Origin", "http://127.0.0.1:1")]), ("another scheme", [("Origin", f"https://{own}")]),
        ("another site", [("Sec-Fetch-Site", "cross-site")]), ("a site beside it", [("Sec-Fetch-Site", "same-site")]),
    ):
        yield f"a form of {name}", posted(serving, step, len(LINE), LINE, heads=heads), False, 403
        yield f"a request of {name}", serving.head("GET", f"/{token}/{step}", heads), False, 403


def strange_forms(serving, step):
    """Forms that are none, too long or cut, in the same way."""

    def post(length, body, kind=FORM, heads=(), path="move"):
        return posted(serving, step, length, body, kind, heads, path)

    yield "no length", serving.head("POST", f"/{serving.token}/{step}/move", [("Content-Type", FORM)]) + LINE, False, 411
    yield "a form in pieces", post(5, b"", heads=[("Transfer-Encoding", "chunked")]) + b"5\r\nline=\r\n0\r\n\r\n", False, 411
    yield "a length below 0", post(-1, LINE), False, 411
    yield "a length in letters", post("x", LINE), False, 411
    yield "two lengths", post(len(LINE), LINE, heads=[("Content-Length", "3")]), False, 411
    yield "a long form", post(10**8, b""), False, 413
    yield "a form that is cut", post(len(LINE) + 10, LINE), True, 400
    yield "a form in JSON", post(len(LINE), LINE, "application/json"), False, 415
    yield "a form as plain text", post(len(LINE), LINE, "text/plain"), False, 415
    yield "a form of many fields", post(11, b"a&b&c&d&e&f"), False, 400
    yield "bytes for a form", post(4, b"\xff\xfe\x00\x01"), False, 400
    yield "another word", post(len(LINE), LINE, path="bench"), False, 404


def strange_requests(serving, step):
    """Requests for what is not there, long ones and cut ones, in the same way; 0 where nothing is sent back."""
    token = serving.token
    yield "a path upwards", serving.head("GET", f"/{token}/../../etc/passwd"), False, 404
    yield "a path upwards in codes", serving.head("GET", f"/{token}/%2e%2e/README.md"), False, 404
    yield "a file of the repository", serving.head("GET", f"/{token}/README.md"), False, 404
    yield "a step that is none", serving.head("GET", f"/{token}/99999"), False, 404
    yield "a move of a step that is none", posted(serving, 99999, len(LINE), LINE), False, 404
    yield "another method", serving.head("DELETE", f"/{token}/{step}"), False, 501
    yield "a request for a tunnel", serving.head("CONNECT", "example.org:443"), False, 501
    yield "a long address", serving.head("GET", f"/{token}/" + "x" * 100_000), False, 414
    yield "a long head", serving.head("GET", f"/{token}/", [("X", "x" * 100_000)]), False, 431
    yield "many heads", serving.head("GET", f"/{token}/", [(f"X{at}", "x") for at in range(300)]), False, 431
    yield "no request", b"\x16\x03\x01\x02\x00\x01\xfc\x03\x03\r\n\r\n", False, (0, 400)
    yield "nothing", b"", True, 0
    yield "a head that is cut", f"GET /{token}/ HTTP/1.1\r\nHost: 127".encode(), True, (0, 403)


def strange_faults(serving):
    """Each of these has its status, and the server goes on."""
    step = serving.step(TREFOIL)
    requests = itertools.chain(*(them(serving, step) for them in (strange_hosts, strange_forms, strange_requests)))
    for name, given, is_cut, wanted in requests:
        answer = serving.sent(given, is_cut)
        # (a server that closes before all is sent may be heard or not)
        statuses = wanted if isinstance(wanted, tuple) else (wanted, 0) if len(given) > 50_000 else (wanted,)
        right = answer.status in statuses and "passwd" not in answer.text
        yield name, None if right else f"{answer.status} and not {wanted}: {answer.text[:200]}"
    yield "a page behind all these", None if serving.step(TREFOIL) else "none"


def large_fault(serving):
    """A code of more bytes than `kh` takes is refused, one of as many is read."""
    found = [serving.post("code", {"text": "P" * count}).status for count in (65_537, 65_536)]
    return None if found == [413, 400] else f"{found}"


def many_fault(serving):
    """Many clients that say nothing leave room for one that does, as soon as their time is over."""
    begun = time.monotonic()
    with contextlib.ExitStack() as stack:
        for _ in range(40):
            stack.enter_context(serving.connected())
        while time.monotonic() - begun < 60:
            with contextlib.suppress(OSError):
                if serving.get("").status == 200:
                    return None
            time.sleep(0.2)
    return "no answer in a minute"


def slow_fault(serving):
    """A client that sends a byte now and then is cut off."""
    with serving.connected() as connection:
        for at, byte in enumerate(serving.head("GET", f"/{serving.token}/", [("X", "x" * 500)])):
            try:
                connection.sendall(bytes([byte]))
                connection.settimeout(0.3)
                if connection.recv(1) == b"":
                    return None
            except socket.timeout:
                continue
            except OSError:
                return None
    return f"{at} bytes"


def at_once_fault(serving):
    """Requests that come at once are all answered, one run after another."""
    found, threads = [], []
    for number in range(6):
        code = f"braid: {' '.join(['1'] * (number + 2))}"
        threads.append(threading.Thread(target=lambda it=code: found.append(serving.step(it))))
        threads[-1].start()
    for thread in threads:
        thread.join()
    return None if len(set(found)) == 6 and all(found) else f"{found}"


def others_fault(serving):
    """No other address of this machine is served."""
    for host in {it[4][0] for it in socket.getaddrinfo(socket.gethostname(), None, socket.AF_INET)} | {"127.0.0.2"}:
        if host != "127.0.0.1":
            with contextlib.suppress(OSError), socket.create_connection((host, serving.port), timeout=5):
                return f"{host} is served"
    return None


def end_fault(program):
    """It ends on Control-C with 0, and says nothing."""
    with Serving(program) as serving:
        serving.step(TREFOIL)
        came = serving.interrupted()
    return None if came == (0, "") else f"{came}"


SLOW = """\
#!/bin/sh
case $1 in homology) echo $$ > "$0.pid"; exec sleep 600 ;; esac
exec '%s' "$@"
"""


def end_at_work_fault(program):
    """Control-C ends a run of `kh` too."""
    with tempfile.TemporaryDirectory() as folder:
        path = os.path.join(folder, "slow")
        write_text(path, SLOW % os.path.abspath(program), 0o755)
        with Serving(path, "--scan", path + ".none") as serving:
            asked = threading.Thread(target=serving.get, args=[serving.step(TREFOIL)], daemon=True)
            asked.start()
            while not (os.path.exists(path + ".pid") and os.path.getsize(path + ".pid")):
                time.sleep(0.05)
            came = serving.interrupted()
        number = int(read_text(path + ".pid"))
    if not wait_for(lambda: not is_living(number)):
        return "the run goes on"
    return None if came == (0, "") else f"{came}"


def no_program_fault():
    """Without a program that answers it says so, and ends."""
    for path, wanted in (("/bin/false", "gives no answer: status 1"), ("/nowhere", "No such file")):
        status, wrote, said = ended([KH_PAGE, "--kh", path])
        if status != 1 or wrote or not said.startswith("kh-page: ") or wanted not in said:
            return f"{path}: status {status}, {wrote}{said}"
    return None


def first_fault(program):
    """It begins with a code of a file."""
    with Serving(program, os.path.join(TOP, "examples", "hopf.pd")) as serving:
        page = serving.get(serving.first)
        return None if page.status == 200 and documents.read(page.text).one("h1").text() == "hopf" else f"{page.status}"


def faults(program):
    """The name of each test, and what is wrong, if anything is."""
    with Serving(program) as serving:
        for name, text, title, sentence in TYPED:
            yield f"{name} is typed", typed_fault(serving, text, title, sentence)
        for name, text, said in WRONG:
            yield f"{name} is typed", wrong_fault(serving, text, said)
        yield "moves", moved_fault(serving)
        yield "undo and redo", buttons_fault(serving)
        yield "the mirror image", turned_fault(serving)
        yield "a page that is saved, and a picture", files_fault(serving)
        yield "what answers say to the browser", heads_fault(serving)
        step = serving.step(TREFOIL)
        for line in NO_MOVES:
            answer = serving.post(f"{step}/move", {"line": line})
            yield f"the line {line!r}", None if answer.status == 400 and "no line of a script" in answer.text else f"{answer.status}"
        yield from strange_faults(serving)
        yield "a code of many bytes", large_fault(serving)
        yield "clients that say nothing", many_fault(serving)
        yield "a slow client", slow_fault(serving)
        yield "six at once", at_once_fault(serving)
        yield "other addresses", others_fault(serving)
    yield "Control-C", end_fault(program)
    yield "Control-C at work", end_at_work_fault(program)
    yield "a file to begin with", first_fault(program)
    yield "no program", no_program_fault()
