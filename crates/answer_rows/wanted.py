#!/usr/bin/env python3
"""Prints the wanted table of answer_rows: `python3 wanted.py > stdout`, and stdin by docs/developer/CONTRIBUTING.md.

The answers are those of tests/model.py, which follows the documents with Python's own libraries and knows nothing of the code.
"""
import copy
import itertools
import pathlib
import sys

sys.path.insert(0, str(pathlib.Path(__file__).resolve().parents[2] / "tests"))
from model import Store, Unfinished, digest_text, etag, identifier  # noqa: E402

PLAIN = {9: "\\t", 10: "\\n", 13: "\\r", 92: "\\x5c"}
AMPLE = 900_000
MOST_TIMES = 65_536  # of one escape of a row


def escaped(data, blank=" "):
    out = "".join(PLAIN.get(b, chr(b) if 32 <= b <= 126 else f"\\x{b:02x}") for b in data)
    return out if blank == " " else out.replace(" ", blank)


def shown(data):
    out = escaped(data)
    return out[:-1] + "\\s" if out.endswith(" ") else out


def word(data):
    """A word of a row: long repeats are written short."""
    data = data if isinstance(data, bytes) else data.encode()
    if not data:
        return "\\e"
    out = ""
    for byte, group in itertools.groupby(data):
        n = len(list(group))
        if n > 40 and 33 <= byte <= 126 and byte != 92:
            while n:
                out += f"\\*{min(n, MOST_TIMES)}.{chr(byte)}"
                n -= min(n, MOST_TIMES)
        else:
            out += escaped(bytes([byte]) * n, "\\s")
    return out


def answered(line, answer):
    print(f"{line:<48} => {answer}" if answer else line)


class Table:
    def __init__(self):
        self.store, self.moment = None, 0

    def note(self, text):
        print(f"\n# {text}")

    def new(self, limit=AMPLE):
        self.store = Store(limit=limit)
        answered(f"store {limit}", "log 9")

    def at(self, moment):
        self.store.moment = moment
        print(f"moment {moment}")

    def open(self, limit=AMPLE):
        self.store.limit = limit
        answered(f"open {limit}", f"log {self.store.used}, position {self.store.count}")

    def after(self):
        return f"; log {self.store.used}, position {self.store.count}"

    def ask(self, text, body=b"", raw=None):
        """A request line by line, its Content-Length from its body, and its whole reply. `raw` stands behind the head as it is."""
        lines = text.strip("\n").split("\n")
        lines += [f"Content-Length: {len(body)}"] if raw is None and body else []
        rest = body if raw is None else raw
        for line in lines:
            print("> " + shown(line.encode("latin-1")))
        print(">")
        if rest:
            print(">| " + word(rest))
        request = "".join(line + "\r\n" for line in lines + [""]).encode("latin-1") + rest
        try:
            reply = self.store.ask(request)
        except Unfinished as end:
            answered("ask", f"{end}{self.after()}")
            return
        answered("ask", reply[9:12].decode() + self.after())
        for line in reply.splitlines(keepends=True):
            if line.endswith(b"\r\n"):
                print("    < " + shown(line[:-2]) if line != b"\r\n" else "    <")
            else:
                print("    <| " + shown(line))

    def request(self, method, target, body, fields):
        head = f"{method} {target} HTTP/1.1\r\n" + "".join(field + "\r\n" for field in fields)
        return head.encode("latin-1") + f"Content-Length: {len(body)}\r\n\r\n".encode() + body

    def brief(self, method, target, body=b"", *fields, row=None):
        """A request in one row, and the status with what the reply holds, or the part that it names."""
        row = row or " ".join(["try", word(method), word(target), word(body), *(word(field.encode("latin-1")) for field in fields)])
        try:
            reply = self.store.ask(self.request(method, target, body, fields))
        except Unfinished as end:
            answered(row, f"{end}{self.after()}")
            return None
        head, _, data = reply.partition(b"\r\n\r\n")
        status = head[9:12].decode()
        part = self.part_of(head.decode("latin-1"), method, target)
        said = f" {part}" if part else (f" {shown(data)}" if data else "")
        if method == "HEAD" and not part and self.held(method, target, fields):
            said = f" {shown(self.held(method, target, fields))}"
        answered(row, status + said + self.after())
        return status

    def held(self, method, target, fields):
        """What a reply to HEAD holds, though it isn't sent: the body of the same GET."""
        reply = self.store.ask(self.request("GET", target, b"", fields))
        return reply.partition(b"\r\n\r\n")[2]

    def part_of(self, head, method, target):
        """The part of an object that a reply names."""
        if "content-range: bytes " in head and " 206 " in head:
            first, last = head.split("content-range: bytes ")[1].split("/")[0].split("-")
            return f"bytes {first} to {int(last) + 1}"
        if " 200 " in head and "content-md5" in head:
            return f"bytes 0 to {head.split('content-length: ')[1].split(chr(13))[0]}"
        return None

    def post(self, target, count, line):
        """The same of a line that is posted so many times."""
        self.brief("POST", target, (line + b"\n") * count, row=f"post {word(target)} {count} {word(line)}")

    def put(self, path, body=b"", *fields):
        self.brief("PUT", path, body, *fields)

    def directory(self, path, *fields):
        self.brief("PUT", path, b"", "Content-Type: application/json; type=directory", *fields)

    def link(self, path, source, *fields):
        self.brief("PUT", path, b"", "Content-Type: application/json; type=link", f"Location: {source}", *fields)


TEXT = "Content-Type: text/plain"
LINK = "Content-Type: application/json; type=link"
FOLDER = "Content-Type: application/json; type=directory"


def objects(t):
    t.note("A put of five bytes and a GET of them; the same with nothing.")
    t.new()
    t.ask(f"PUT /l/stor/a HTTP/1.1\n{TEXT}", b"hello")
    t.ask("GET /l/stor/a HTTP/1.1")
    t.ask("HEAD /l/stor/a HTTP/1.1")
    t.ask(f"PUT /l/stor/b HTTP/1.1\n{TEXT}")
    t.ask("GET /l/stor/b HTTP/1.1")
    t.note("A type is kept as it came, and one that is missing is that of bytes. Marks are kept with the object, and with a link to it.")
    t.at(1_700_000_000)
    t.ask("PUT /l/stor/c HTTP/1.1\ncontent-type:\tText/Plain; charset=utf-8 \nM-b: 2\nm-a: x y\nm-B: 1\nDurability-Level: 3", b"c")
    t.ask("GET /l/stor/c HTTP/1.1")
    t.ask("HEAD /l/stor/c HTTP/1.1")
    t.ask("GET /l/stor/c HTTP/1.1\nRange: bytes=0-0")
    t.at(1_700_000_001)
    t.ask(f"PUT /l/stor/d HTTP/1.1\n{LINK}\nLocation: /l/stor/c")
    t.ask("GET /l/stor/d HTTP/1.1")
    t.ask("PUT /l/stor/e HTTP/1.1", b"e")
    t.ask("GET /l/stor/e HTTP/1.1")
    t.note("Bodies of one piece and of more; what is put again is another object. The store opened again is the same.")
    for n in (65_535, 65_536, 65_537, 131_073):
        t.put("/l/stor/large", b"x" * n)
    t.brief("GET", "/l/stor/large")
    t.brief("GET", "/l/stor/large", b"", "Range: bytes=65535-65537")
    t.open()
    t.brief("GET", "/l/stor/large")
    t.ask("GET /l/stor/c HTTP/1.1")
    t.note("A reply closes where its request does.")
    t.ask("GET /l/stor/a HTTP/1.0")
    t.ask("GET /l/stor/none HTTP/1.1\nConnection: x, Close")


def tree(t):
    t.note("The parent is not there, is an object; a directory stands there, or an object; a root.")
    t.new()
    t.ask("PUT /l/stor/x/y HTTP/1.1", b"y")
    t.put("/l/stor/a", b"a")
    t.put("/l/stor/a/b", b"b")
    t.directory("/l/stor/d")
    t.put("/l/stor/d", b"d")
    t.directory("/l/stor/a")
    t.directory("/l/stor/d")
    t.directory("/l/stor/d", "Content-MD5: 1B2M2Y8AsgTpgAmY7PhCfg==")
    t.put("/l/stor", b"r")
    t.put("/l/public", b"r")
    t.directory("/l/stor")
    t.directory("/l/public/p")
    t.directory("/l/stor/x/y")
    t.directory("/l/stor/a/b")
    t.note("A directory's body is read, and not kept.")
    t.brief("PUT", "/l/stor/e", b"body", "Content-Type: application/x-json-stream;type=directory")
    t.brief("GET", "/l/stor/e")
    t.note("Deletes.")
    t.put("/l/stor/d/x", b"x")
    t.brief("DELETE", "/l/stor/d")
    t.brief("DELETE", "/l/stor/d/x")
    t.brief("DELETE", "/l/stor/d")
    t.brief("GET", "/l/stor/d")
    t.brief("DELETE", "/l/stor/d")
    t.brief("DELETE", "/l/stor")
    t.brief("DELETE", "/l/public")
    t.brief("DELETE", "/l/stor/a/b")
    t.brief("DELETE", "/l/stor/a", b"a body of a delete")
    t.note("A link has what its source held, whatever becomes of that.")
    t.put("/l/stor/a", b"hello")
    t.link("/l/stor/b", "/l/stor/a")
    t.put("/l/stor/a", b"bye")
    t.brief("DELETE", "/l/stor/a")
    t.ask("GET /l/stor/b HTTP/1.1")
    t.link("/l/stor/c", "/l/stor/a")
    t.link("/l/stor/c", "/l/stor")
    t.brief("PUT", "/l/stor/c", b"", LINK)
    t.link("/l/stor", "/l/stor/b")
    t.link("/l/stor/x/y", "/l/stor/b")
    t.link("/l/stor/b/c", "/l/stor/b")
    t.link("/l/stor/e", "/l/stor/b")
    t.link("/l/stor/b", "/l/stor/b")
    t.link("/l/public/b", "/l/stor/%62?x=y")
    t.link("/l/stor/c", "/m/stor/b")
    t.link("/l/stor/c", "/l/none/b")
    t.link("/l/stor/c", "/l")
    t.link("/l/stor/c", "b")
    t.link("/l/stor/c", "/l/jobs")
    t.ask("GET /l/public/b HTTP/1.1")


def pages(t):
    t.note("A page has rows in the order of their bytes, from its marker on.")
    t.new()
    for name in ("b", "a", "c"):
        t.put(f"/l/stor/{name}")
    t.ask("GET /l/stor?limit=2 HTTP/1.1")
    t.ask("GET /l/stor?limit=2&marker=b HTTP/1.1")
    t.ask("HEAD /l/stor HTTP/1.1")
    for query in ("limit=1024", "limit=1&marker=c", "marker=d", "marker=bb", "limit=01", "limit=2&limit=0", "x=1&limit=1", "Limit=1", "marker=%62", "limit=%31", "limit=1&marker"):
        t.brief("GET", f"/l/stor?{query}")
    for query in ("limit=0", "limit=1025", "limit=", "limit", "limit=-1", "limit=+1", "limit=1x", "limit=99999999999999999999"):
        t.brief("GET", f"/l/stor?{query}")
    t.brief("HEAD", "/l/stor?limit=0")
    t.brief("GET", "/l/stor/none?limit=0")
    t.brief("GET", "/l/stor/none")
    t.brief("GET", "/l/stor/a?limit=0")
    t.brief("PUT", "/l/stor/a?limit=0", b"q")
    t.brief("DELETE", "/l/stor/c?limit=0")
    t.brief("GET", "/l/public")
    t.note("Names with a quote, a backslash, capitals, spaces and bytes above 127; directories have no size.")
    for name in ("%22q%22", "back%5Cslash", "A", "a%20b", "%C3%A9", "%F0%9F%98%80", "a+b"):
        t.put(f"/l/public/{name}", b"n")
    t.at(253_402_300_799)
    t.directory("/l/public/dir")
    t.put("/l/public/dir/below", b"n")
    t.ask("GET /l/public HTTP/1.1")
    t.brief("GET", "/l/public?marker=a+b&limit=2")
    t.brief("GET", "/l/public?marker=%C3%A9&limit=1")
    t.brief("GET", "/l/public/%C3%a9")


def conditions(t):
    none, first, second = etag(99 * 4096), etag(0), etag(4096)
    t.note("If-None-Match and If-Match keep two writers apart.")
    t.new()
    t.put("/l/stor/a", b"1", "If-None-Match: *")
    t.put("/l/stor/a", b"2", "If-None-Match: *")
    t.put("/l/stor/a", b"3", f'If-Match: "{first}"')
    t.put("/l/stor/a", b"4", f'If-Match: "{first}"')
    t.ask(f"GET /l/stor/a HTTP/1.1\nIf-None-Match: {second}")
    t.note("Each condition of an object that is there, read, put, linked to and deleted; then of nothing, and of a directory.")
    t.directory("/l/stor/d")
    t.at(1_000)
    t.put("/l/stor/s", b"source")
    past, now, later = "Thu, 01 Jan 1970 00:16:39 GMT", "Thu, 01 Jan 1970 00:16:40 GMT", "Thursday, 01-Jan-70 00:16:41 GMT"
    number = lambda: t.store.rows[(b"stor", b"o")].number
    fields = [
        lambda: "If-Match: *", lambda: f"If-Match: {etag(number())}", lambda: f'If-Match: "x", "{etag(number())}"', lambda: f"If-Match: W/{etag(number())}",
        lambda: f"If-Match: {none}", lambda: "If-Match:", lambda: "If-None-Match: *", lambda: f"If-None-Match: {etag(number())}",
        lambda: f"If-None-Match: W/\"{etag(number())}\"", lambda: f"If-None-Match: {none}, x", lambda: f"If-Unmodified-Since: {past}",
        lambda: f"If-Unmodified-Since: {now}", lambda: "If-Unmodified-Since: yesterday", lambda: f"If-Modified-Since: {past}", lambda: f"If-Modified-Since: {now}",
        lambda: f"If-Modified-Since: {later}", lambda: "If-Modified-Since: Thu Jan  1 00:16:40 1970", lambda: "If-Modified-Since: yesterday",
    ]
    for field in fields:
        t.put("/l/stor/o", b"old")
        said = field()
        t.brief("GET", "/l/stor/o", b"", said)
        t.brief("HEAD", "/l/stor/o", b"", said)
        t.link("/l/stor/o", "/l/stor/s", said)
        t.put("/l/stor/o", b"old")
        said = field()
        t.put("/l/stor/o", b"new", said)
        if (b"stor", b"o") in t.store.rows:
            t.brief("DELETE", "/l/stor/o", b"", field())
    t.put("/l/stor/o", b"old")
    for field in ("If-Match: *", f"If-Match: {none}", "If-None-Match: *", f"If-Unmodified-Since: {past}", f"If-Modified-Since: {later}"):
        t.brief("GET", "/l/stor/none", b"", field)
        t.brief("DELETE", "/l/stor/none", b"", field)
        t.brief("GET", "/l/stor/d", b"", field)
        t.directory("/l/stor/d", field)
        t.put("/l/stor/new", b"n", field)
        if (b"stor", b"new") in t.store.rows:
            t.brief("DELETE", "/l/stor/new")
    t.brief("DELETE", "/l/stor/d", b"", "If-Match: none")
    t.note("Two conditions: If-Match is judged before If-None-Match, and a date only where its tags are not there.")
    for one, two in itertools.product(("If-Match: *", "If-Match: x", f"If-Unmodified-Since: {past}", f"If-Unmodified-Since: {now}"), ("If-None-Match: *", "If-None-Match: x", f"If-Modified-Since: {past}", f"If-Modified-Since: {now}")):
        t.brief("GET", "/l/stor/o", b"", one, two)
    for one, two in ((f"If-Match: x", f"If-Unmodified-Since: {now}"), ("If-Match: *", f"If-Unmodified-Since: {past}"), ("If-None-Match: *", f"If-Modified-Since: {past}"), ("If-None-Match: x", f"If-Modified-Since: {now}")):
        t.brief("GET", "/l/stor/o", b"", one, two)


def ranges(t):
    t.note("Parts of five bytes, and of none.")
    t.new()
    t.put("/l/stor/a", b"hello", TEXT)
    t.put("/l/stor/empty")
    for value in ("bytes=5-", "bytes=-2", "bytes=1-100", "bytes=0-1,3-4"):
        t.ask(f"GET /l/stor/a HTTP/1.1\nRange: {value}")
    for value in ("bytes=0-0", "bytes=0-4", "bytes=4-4", "bytes=5-5", "bytes=2-1", "bytes=0-", "bytes=-0", "bytes=-5", "bytes=-6", "bytes=-", "bytes=", "bytes=a-b", "Bytes=0-1", "bytes= 0-1", "items=0-1", "bytes=00-01", "bytes=0-99999999999999999999", "bytes=0-9999999999999999999"):
        t.brief("GET", "/l/stor/a", b"", f"Range: {value}")
    for value in ("bytes=0-", "bytes=0-0", "bytes=-1", "bytes=-0"):
        t.brief("GET", "/l/stor/empty", b"", f"Range: {value}")
    t.note("Of HEAD, of a directory and beside If-Range a range counts for nothing; a condition comes before it.")
    t.ask("HEAD /l/stor/a HTTP/1.1\nRange: bytes=9-")
    t.brief("GET", "/l/stor", b"", "Range: bytes=0-0")
    t.brief("GET", "/l/stor/a", b"", "Range: bytes=0-0", "If-Range: x")
    t.brief("GET", "/l/stor/a", b"", "Range: bytes=9-", "If-None-Match: *")
    t.brief("GET", "/l/stor/a", b"", "Range: bytes=9-", "If-Match: x")
    t.brief("GET", "/l/stor/a", b"", "Range: bytes=0-0", "Range: bytes=1-1")
    t.brief("GET", "/l/stor/a", b"", "Range: bytes=0-0", "If-Match: *")


def digests(t):
    hello = digest_text(b"hello")
    t.note("A digest that is the body's, that of other bytes, and none at all; of an object its pieces stay, of others there are none.")
    t.new()
    t.put("/l/stor/a", b"hello", f"Content-MD5: {hello}")
    t.ask("PUT /l/stor/a HTTP/1.1\nContent-MD5: 1B2M2Y8AsgTpgAmY7PhCfg==", b"hello")
    for wish in (hello[:-1], hello[:-2], hello.lower(), "\t" + hello, "", "x", hello + "=", "AAAA"):
        t.put("/l/stor/a", b"hello", f"Content-MD5: {wish}")
    t.brief("GET", "/l/stor/a", b"", f"Content-MD5: {hello}")
    t.brief("GET", "/l/stor/a", b"", "Content-MD5: 1B2M2Y8AsgTpgAmY7PhCfg==")
    t.brief("DELETE", "/l/stor/a", b"x", f"Content-MD5: {hello}")
    t.brief("PUT", "/l/stor/d", b"hello", FOLDER, f"Content-MD5: {digest_text(b'x')}")
    t.brief("PUT", "/l/stor/d", b"hello", FOLDER, f"Content-MD5: {hello}")
    t.brief("PUT", "/l/stor/d", b"hello", LINK, "Content-MD5: x")
    t.brief("HEAD", "/l/stor/a", b"", "Content-MD5: x")


def targets(t):
    t.note("The target, the login, the route and the method.")
    t.new()
    for target in ("l/stor/a", "/", "//", "/l/stor/..", "/l/stor/.", "/l/stor/%2F", "/l/stor/%00", "/l/stor/%7f", "/l/stor/%ff", "/l/stor/" + "a" * 256, "/l/stor/" + "/".join(["a" * 250] * 5), "*"):
        t.brief("GET", target)
    for target in ("/m/stor/a", "/L/stor", "/~~/stor", "/l/other", "/l", "/l/STOR", "/l/uploads", "/l/reports/a", "/l/jobs", "/l/jobs/x/live/in"):
        t.brief("GET", target)
    for method in ("PATCH", "POST", "OPTIONS", "get", "TRACE"):
        t.brief(method, "/l/stor/a", b"body")
    t.ask("PATCH /l/stor/a HTTP/1.1")
    t.brief("POST", "/l/jobs", b"{}")
    t.brief("GET", "/l//stor///")
    t.put("/l/stor/%61%2b", b"x")
    t.brief("GET", "/l/stor/a+?x")


def browsers(t):
    t.note("Pages of browsers: nothing is put or deleted where there is an Origin, and nothing of the body is kept; reads are answered.")
    t.new()
    t.put("/l/stor/a", b"hello", TEXT)
    for origin in ("null", "http://localhost:8080", ""):
        t.brief("PUT", "/l/stor/a", b"other", f"Origin: {origin}")
    t.brief("PUT", "/l/stor/b", b"PUT /l/stor/smuggled HTTP/1.1\r\nContent-Length: 1\r\n\r\nx", "Origin: null")
    t.brief("POST", "/l/stor/b", b"PUT /l/stor/smuggled HTTP/1.1\r\nContent-Length: 1\r\n\r\nx", "Origin: null")
    t.brief("PUT", "/l/stor/d", b"", FOLDER, "Origin: null")
    t.brief("PUT", "/l/stor/c", b"", LINK, "Location: /l/stor/a", "Origin: null")
    t.brief("DELETE", "/l/stor/a", b"", "Origin: https://evil.example")
    t.ask("PUT /l/stor/a HTTP/1.1\nOrigin: null", b"other")
    t.brief("GET", "/l/stor/smuggled")
    t.brief("GET", "/l/stor/a", b"", "Origin: null")
    t.brief("HEAD", "/l/stor/a", b"", "Origin: null")
    t.brief("GET", "/l/stor", b"", "Origin: null")
    t.brief("GET", "/l/stor/a", b"", "Service-Worker: script")
    t.ask("HEAD /l/stor/a HTTP/1.1\nService-Worker: script")


def losing(t):
    t.note("A PUT of a part, of a coded body, or of metadata alone: it is refused, nothing of its body is kept, and what is there stays.")
    t.new()
    t.put("/l/stor/a", b"hello world", TEXT, "m-a: 1")
    t.directory("/l/stor/d")
    part, coded = "Content-Range: bytes 3-10/11", "Content-Encoding: gzip"
    for field in (part, "Content-Range: bytes 0-10/11", "Content-Range:", coded, "Content-Encoding: identity, br", "Content-Encoding:"):
        t.brief("PUT", "/l/stor/a", b"lo world", field)
    for target in ("/l/stor/a?metadata=true", "/l/stor/a?metadata", "/l/stor/a?x&metadata=no"):
        t.brief("PUT", target, b"", "m-a: 2")
    t.ask("PUT /l/stor/a HTTP/1.1\n" + part, b"lo world")
    t.ask("PUT /l/stor/a?metadata=true HTTP/1.1\nm-a: 2")
    t.ask("GET /l/stor/a HTTP/1.1")
    for field in (part, coded):
        t.brief("PUT", "/l/stor/e", b"", FOLDER, field)
        t.brief("PUT", "/l/stor/e", b"", LINK, "Location: /l/stor/a", field)
    t.brief("PUT", "/l/stor/a?metadata=true", b"", LINK, "Location: /l/stor/d")
    t.brief("PUT", "/l/stor/d?metadata=true", b"", FOLDER)
    t.brief("GET", "/l/stor")
    t.brief("PUT", "/l/stor/a", b"again", "Content-Encoding: Identity", "Range: bytes=3-")
    t.brief("GET", "/l/stor/a?metadata=true", b"", part, coded)
    t.brief("DELETE", "/l/stor/a?metadata=true", b"", part, coded)


def two_at_once(t):
    t.note("Two refusals at once, of a put of an object: the one that stands first in the order is answered, and nothing of the body is kept")
    print("# but where its digest alone refuses it.")
    t.new()
    t.put("/l/stor/o", b"o")
    t.directory("/l/stor/d")
    faults = {
        "target": ("/l/stor/..", []), "login": ("/m/stor/x", []), "area": ("/l/none/x", []), "jobs": ("/l/jobs/x", []),
        "root": ("/l/stor", []), "parent": ("/l/stor/none/x", []), "object": ("/l/stor/o/x", []), "directory": ("/l/stor/d", []),
        "digest": (None, ["Content-MD5: x"]), "other digest": (None, ["Content-MD5: 1B2M2Y8AsgTpgAmY7PhCfg=="]), "type": (None, ["Content-Type: \x7f"[:-1] + "a\x80b"]),
        "metadata": (None, ["m-a: \x80"]), "level": (None, ["Durability-Level: 7"]), "size": (None, ["m-z: " + "z" * 4_094]),
        "condition": (None, ["If-Match: x"]), "part": (None, ["Content-Range: bytes 3-10/11"]), "coding": (None, ["Content-Encoding: gzip"]), "method": ("POST", []), "origin": (None, ["Origin: null"]),
    }
    def pair(one, two):
        method, target, fields = "PUT", None, []
        for fault in (one, two):
            place, more = faults[fault]
            if place == "POST":
                method = "POST"
            elif place and target:
                return
            elif place:
                target = place
            fields += more
        t.brief(method, target or "/l/stor/x", b"body", *fields)
    for one, two in itertools.combinations(faults, 2):
        if {one, two} != {"digest", "other digest"}:
            pair(one, two)
    t.note("Of a link, a directory, a delete and a look.")
    for location in (None, "/l/stor/..", "/m/stor/a", "/l/none", "/l/stor/none", "/l/stor/d"):
        fields = [LINK] + ([f"Location: {location}"] if location else [])
        for target, more in (("/l/stor", []), ("/l/stor/none/x", []), ("/l/stor/o/x", []), ("/l/stor/d", []), ("/l/stor/o", ["If-Match: x"]), ("/l/stor/x", ["Content-MD5: x"])):
            t.brief("PUT", target, b"", *fields, *more)
    for target in ("/l/stor", "/l/stor/none/x", "/l/stor/o/x", "/l/stor/d"):
        t.link(target, "/l/stor/o", "If-Match: x")
    for target in ("/l/stor/o", "/l/stor/none/x", "/l/stor/o/x", "/l/stor/d", "/l/stor"):
        t.directory(target, "If-Match: x")
        t.directory(target, "Content-MD5: x")
    t.put("/l/stor/d/below", b"b")
    for target in ("/l/stor", "/l/stor/none", "/l/stor/d"):
        t.brief("DELETE", target, b"", "If-Match: x")
        t.brief("DELETE", target, b"", "Content-MD5: x")
    for target in ("/l/stor?limit=0", "/l/stor/none?limit=0", "/l/stor/o?limit=0"):
        for field in ("Content-MD5: x", "If-Match: x", "If-None-Match: *", "Range: bytes=9-"):
            t.brief("GET", target, b"", field)


def space(t):
    t.note("A log that is full: to the byte, of each command. What was stored of a body stays.")
    for limit in (100, 99, 36, 35, 9):
        t.new(limit)
        t.ask(f"PUT /l/stor/a HTTP/1.1\n{TEXT}", b"hello") if limit == 99 else t.put("/l/stor/a", b"hello", TEXT)
        t.brief("GET", "/l/stor/a")
    t.note("A body of no bytes has no piece.")
    for limit in (73, 72):
        t.new(limit)
        t.put("/l/stor/a", b"", TEXT)
    for limit in (65_654, 65_653, 65_590, 65_589, 65_567, 65_566):
        t.new(limit)
        t.put("/l/stor/a", b"x" * 65_537, TEXT)
    t.note("A directory, a link, a delete; with marks a put is longer.")
    t.new()
    t.put("/l/stor/a", b"hello", TEXT)
    for doing in (lambda: t.directory("/l/stor/d"), lambda: t.link("/l/stor/l", "/l/stor/a"), lambda: t.brief("DELETE", "/l/stor/a"), lambda: t.put("/l/stor/m", b"", TEXT, "m-a: b", "Durability-Level: 1")):
        t.open(t.store.used)
        doing()
        t.open(t.store.used + 20)
        doing()
        t.open(AMPLE)
        doing()
    t.note("A refusal of the account comes before the space; so does a digest that only the whole body could tell.")
    t.open(t.store.used)
    t.put("/l/stor/none/a", b"hello")
    t.put("/l/stor/a", b"hello", "If-Match: x")
    t.put("/l/stor/a", b"x" * 65_537, "Content-MD5: 1B2M2Y8AsgTpgAmY7PhCfg==")
    t.open(t.store.used + 65_558)
    t.put("/l/stor/a", b"x" * 65_537, "Content-MD5: 1B2M2Y8AsgTpgAmY7PhCfg==")
    t.open(t.store.used)
    t.directory("/l/stor/d")
    t.brief("GET", "/l/stor/d")
    t.brief("DELETE", "/l/stor/d")


def endings(t):
    t.note("Chunked bodies, and bodies that don't end well: nothing is put, and the pieces that came stay.")
    t.new()
    chunked = "PUT /l/stor/a HTTP/1.1\nTransfer-Encoding: chunked"
    t.ask(chunked, raw=b"5\r\nhello\r\n0\r\n\r\n")
    t.brief("GET", "/l/stor/a")
    for raw in (b"5\r\nhel", b"5\r\nhello\r\n", b"5\r\nhello\r\n0\r\n", b"5\r\nhelloX", b"g\r\n", b"", b"5\r\nhello\r\n40000001\r\n"):
        t.ask(chunked, raw=raw)
    t.ask("PUT /l/stor/a HTTP/1.1\nContent-Length: 9", raw=b"hello")
    t.ask("PUT /l/stor/a HTTP/1.1\nContent-Length: 70000", raw=b"h" * 65_540)
    t.ask("PUT /l/stor/a HTTP/1.1\nContent-Length: 1073741825", raw=b"hello")
    t.ask("GET /l/stor/a HTTP/1.1\nContent-Length: 16777217", raw=b"hello")
    t.note("The same of requests that keep no body.")
    for head in ("PUT /l/stor/none/a HTTP/1.1", "PUT /l/stor/a HTTP/1.1\nContent-MD5: x", f"PUT /l/stor/d HTTP/1.1\n{FOLDER}", f"PUT /l/stor/d HTTP/1.1\n{LINK}\nLocation: /l/stor/a", "DELETE /l/stor/a HTTP/1.1", "GET /l/stor/a HTTP/1.1", "PATCH /l/stor/a HTTP/1.1", "GET /l/jobs HTTP/1.1"):
        t.ask(head + "\nContent-Length: 9", raw=b"hello")
    t.brief("GET", "/l/stor/a")


def faults(t):
    t.note("A put of five bytes makes eight calls of the disk, the last ones a sync, the gate and a sync. One that fails closes the store; what was")
    print("# answered before stands when it is opened again, and of the put all or nothing.")
    for failing in range(8):
        t.new()
        t.put("/l/stor/a", b"1")
        print(f"fail disk {failing}")
        answered("try PUT /l/stor/b hello " + word(TEXT), "Disk; closed")
        if failing == 7:
            t.store.ask(t.request("PUT", "/l/stor/b", b"hello", [TEXT]))
        t.open()
        t.brief("GET", "/l/stor/a")
        t.brief("GET", "/l/stor/b")


CAT = b'{"phases":[{"exec":"cat"}]}'


def nested(lists):
    """A document with so many lists within each other, that nobody asked for."""
    return b'{"phases":[{"exec":"a"}],"more":' + b"[" * lists + b"]" * lists + b"}"


def job_path(command, tail=""):
    """The folder of the job that the command behind so many made."""
    return f"/l/jobs/{identifier(2, 4_096 * command)}{tail}"


def jobs(t):
    t.note("A job that is made, gets lines, ends its input and is cancelled; its texts before and behind that, and the objects that it leaves.")
    t.new()
    t.at(1_700_000_000)
    t.put("/l/stor/a", b"hello", TEXT)
    t.ask("POST /l/jobs HTTP/1.1", b'{"name":"n","phases":[{"exec":"cat","memory":1024},{"type":"reduce","count":2,"exec":"wc","init":"true","assets":["~~/stor/a"]}]}')
    live = job_path(1, "/live/")
    t.ask(f"POST {live}in HTTP/1.1", b"/l/stor/none")
    t.brief("POST", f"{live}in", b"/l/stor/a\r\n\r\n\n~~/stor/a\r\r\n/m/stor/a\nnot a path\n/l/stor/d%2F\n/l/stor/a\r")
    t.brief("POST", f"{live}in", b"~~/stor/a\n/l/stor/\xc3\xa9")
    t.brief("POST", f"{live}in")
    t.at(1_700_000_060)
    texts = ("in", "out", "fail", "err", "tasks", "status")
    for text in texts:
        t.ask(f"GET {live}{text} HTTP/1.1")
    t.ask(f"HEAD {live}fail HTTP/1.1")
    t.ask(f"GET {live}status HTTP/1.1\nIf-None-Match: *\nRange: bytes=0-0")
    t.ask(f"POST {live}in/end HTTP/1.1")
    t.brief("POST", f"{live}in", b"/l/stor/a")
    t.brief("POST", f"{live}in/end")
    t.brief("GET", f"{live}status")
    t.open()
    t.brief("GET", f"{live}err")
    t.at(1_700_000_120)
    t.ask(f"POST {live}cancel HTTP/1.1", b"a body that is dropped")
    for request in (("POST", "cancel"), ("POST", "in/end"), ("POST", "in"), ("GET", "status"), ("GET", "in"), ("GET", "fail")):
        t.brief(request[0], live + request[1], b"")
    for name in ("", "/in.txt", "/out.txt", "/fail.txt", "/err.txt", "/job.json", "/stor"):
        t.brief("GET", job_path(1, name))
    t.ask(f"GET {job_path(1, '/fail.txt')} HTTP/1.1\nRange: bytes=-5")
    t.link("/l/stor/kept", job_path(1, "/job.json"))
    t.open()
    t.brief("GET", f"{live}status")
    t.brief("GET", job_path(1))
    t.note("Documents, each with its first fault; what is asked for besides is passed over.")
    for document in (
        b"", b"x", b"[]", b"{}", b'{"phases":[]}', b'{"phases":{}}', b'{"phases":[1]}', b'{"phases":[{}]}', b'{"phases":[{"exec":""}]}', b'{"phases":[{"exec":1}]}',
        b'{"phases":[{"exec":"a"},{}]}', b'{"phases":[{"exec":"a","type":"x"}]}', b'{"phases":[{"exec":"a","type":1}]}', b'{"phases":[{"exec":"a","init":1}]}',
        b'{"phases":[{"exec":"a\\u0000"}]}', b'{"phases":[{"exec":"a","type":"reduce","count":0}]}', b'{"phases":[{"exec":"a","type":"reduce","count":1025}]}',
        b'{"phases":[{"exec":"a","type":"reduce","count":"2"}]}', b'{"phases":[{"exec":"a","type":"reduce","count":1.0}]}', b'{"phases":[{"exec":"a","assets":{}}]}',
        b'{"phases":[{"exec":"a","assets":[1]}]}', b'{"phases":[{"exec":"a","assets":["a"]}]}', b'{"phases":[{"exec":"a","assets":["/m/stor/a"]}]}', b"\xff" + CAT,
        nested(128), nested(127), b"[" * 128 + b"]" * 128,
        b'{"phases":[' + b",".join([b'{"exec":"a"}'] * 17) + b"]}", b'{"phases":[{"exec":"a","assets":["/l/stor/none"]}]}', b'{"phases":[{"exec":"a","assets":["/l/stor"]}]}',
        b'{"phases":[{"exec":"a","type":"map","count":0}]}', b'{"name":1,"phases":[{"exec":"a","type":"reduce","count":1024,"more":[]}],"more":{}}',
        b'{"name":"\\u00e9","phases":[{"exec":"a","init":"","assets":["/l/stor/a","~~/stor/a"]}]}', b'{"phases":[' + b",".join([b'{"exec":"a"}'] * 16) + b"]}",
        nested(126),
    ):
        t.brief("POST", "/l/jobs", document)
    large = b'{"phases":[{"exec":"a","assets":[' + b",".join([b'"/l/stor/large"'] * 64) + b"]}]}"
    for n in (262_144, 262_145):
        t.put("/l/stor/large", b"x" * n)
        t.brief("POST", "/l/jobs", large)
    t.brief("POST", "/l/jobs", large.replace(b"]}]}", b',"/l/stor/a"]}]}'))


def listings(t):
    t.note("Pages of jobs: of all, and of those that run or are done, from a marker on.")
    t.new()
    made = []
    for moment in range(6):
        t.at(100 + moment)
        made.append(t.store.count)
        t.brief("POST", "/l/jobs", CAT)
        if moment % 2:
            t.brief("POST", job_path(made[-1], "/live/cancel"))
    for query in ("", "?state=running", "?state=done"):
        t.ask(f"GET /l/jobs{query} HTTP/1.1")
    names = [identifier(2, 4_096 * command) for command in made]
    for query in (
        "state=running&limit=2", f"state=running&limit=2&marker={names[2]}", f"state=running&marker={names[3]}", f"marker={names[5]}&state=done", "state=done&marker=zz", "state=done&marker=",
        f"state=done&marker={names[1].upper()}", f"state=done&marker={names[1][:-1]}", "state=running&limit=0", "state=running&limit=1025", "state=x", "state=", "state", "state=x&limit=0", "state=Running",
        "state=done&state=x", "state=x&state=done", "State=x", "limit=1&state=done",
    ):
        t.brief("GET", f"/l/jobs?{query}")
    t.ask("HEAD /l/jobs?state=done&limit=1 HTTP/1.1")
    t.brief("HEAD", "/l/jobs?state=x")
    t.brief("POST", "/l/jobs?state=x", CAT)


def job_targets(t):
    t.note("Each target below the folder of jobs with each method.")
    t.new()
    t.brief("POST", "/l/jobs", CAT)
    t.brief("POST", "/l/jobs", CAT)
    t.brief("POST", job_path(0, "/live/cancel"))
    t.put("/l/stor/a", b"hello")
    here = [job_path(1, tail) for tail in ("", "/live", "/live/in", "/live/in/end", "/live/cancel", "/live/status", "/live/out", "/live/fail", "/live/err", "/live/tasks", "/live/other", "/live/in/other", "/live/in/end/x", "/live/IN", "/%6cive/in", "/stor", "/stor/x", "/in.txt")]
    there = [job_path(0, tail) for tail in ("", "/out.txt", "/job.json", "/stor", "/stor/x", "/live/out")]
    for target in ["/l/jobs", "/l/jobs/live", "/l/jobs/x", "/l/jobs/x/live/in", "/l/jobs/x/live/other", "/l/jobs/x/y/z", *here, *there]:
        for method in ("GET", "HEAD", "PUT", "DELETE", "PATCH"):
            t.brief(method, target)
    for target in ["/l/jobs/live", "/l/jobs/x", "/l/jobs/x/live/in", "/l/jobs/x/live/in/end", "/l/jobs/x/live/cancel", "/l/jobs/x/live/other", *here[:2], *here[5:], *there]:
        t.brief("POST", target, b"x")
    for target in (job_path(1), job_path(0, "/out.txt"), job_path(0, "/stor")):
        t.directory(target)
        t.link(target, "/l/stor/a")
    t.note("Names that no job has: of other kinds, in capitals, of other lengths, of a job to come.")
    name = identifier(2, 4_096)
    for other in (identifier(1, 4_096), identifier(3, 4_096), name.upper(), name[:-1], name + "0", name.replace("-", ""), identifier(2, 4_097), identifier(2, 8_192), identifier(2, 99 * 4_096)):
        t.brief("GET", f"/l/jobs/{other}/live/status")
        t.brief("POST", f"/l/jobs/{other}/live/in", b"x")


def job_order(t):
    t.note("Two refusals at once of what is asked of jobs: the one that stands first in the order is answered.")
    t.new()
    t.brief("POST", "/l/jobs", CAT)
    t.brief("POST", "/l/jobs", CAT)
    t.brief("POST", job_path(0, "/live/cancel"))
    t.put("/l/stor/a", b"hello")
    md5 = "Content-MD5: " + digest_text(b"x")
    head = {"target": "/l/jobs/../x", "login": "/m/jobs/x/live/in", "route": job_path(1, "/live/other"), "method": job_path(1, "/live/status")}
    fields = {"origin": "Origin: null", "digest": "Content-MD5: x", "other digest": md5}
    bodies = {"text": b"\xff", "job": b"line"}
    for (place, target), (_, field) in itertools.product(head.items(), fields.items()):
        t.brief("POST", target, b"\xff", field)
    for field, body in itertools.product(fields.values(), bodies.values()):
        for target in (job_path(0, "/live/in"), "/l/jobs/x/live/in", "/l/jobs"):
            t.brief("POST", target, body, field)
    for one, two in itertools.combinations(fields.values(), 2):
        t.brief("POST", job_path(0, "/live/in"), b"\xff", one, two)
    for target in (job_path(0, "/live/in/end"), job_path(0, "/live/cancel"), "/l/jobs/x/live/in/end", "/l/jobs/x/live/cancel"):
        for field in fields.values():
            t.brief("POST", target, b"line", field)
    for target in ("/l/jobs?state=x", "/l/jobs?state=x&limit=0", "/l/jobs?state=done&limit=0", "/l/jobs/x/live/out", job_path(1, "/live/out")):
        for field in fields.values():
            t.brief("GET", target, b"line", field)
    t.brief("POST", "/l/jobs/x/live/in", b"\xff")
    t.brief("POST", job_path(0, "/live/in"), b"\xff")
    t.brief("GET", "/l/jobs/x/live/in/end")
    t.brief("POST", job_path(1, "/live/in"), b"/l/stor/a", "Content-MD5: " + digest_text(b"/l/stor/a"), "Transfer: x")
    t.note("The last refusal is the log's: of a document, lines, an end and a cancel, to the byte. A cancel without room leaves the log as long as before.")
    changes = (("/l/jobs", CAT), (job_path(1, "/live/in"), b"/l/stor/a\nx\n"), (job_path(1, "/live/in/end"), b""), (job_path(1, "/live/cancel"), b""))
    for target, body in changes:
        used, count = t.store.used, t.store.count
        t.open(used)
        t.brief("POST", target, body)
        t.brief("POST", target, body, "Content-MD5: x")
        t.open(used + 37)
        t.brief("POST", target, body)
        whole = copy.deepcopy(t.store)
        whole.limit = AMPLE
        whole.ask(t.request("POST", target, body, []))
        t.open(whole.used - 1)
        t.brief("POST", target, body)
        t.open(whole.used)
        t.brief("POST", target, body)
    t.note("What stands is refused for that first, and looks need no room.")
    t.open(t.store.used)
    for target in ("/live/in", "/live/in/end", "/live/cancel"):
        t.brief("POST", job_path(1, target), b"x")
    t.brief("GET", job_path(1, "/live/status"))
    t.brief("POST", "/l/jobs", b"x")


def job_bodies(t):
    t.note("Bodies of what is posted: in chunks, cut, bad or too large; nothing is made, and nothing stays.")
    t.new()
    t.ask("POST /l/jobs HTTP/1.1\nTransfer-Encoding: chunked", raw=b"1b\r\n" + CAT + b"\r\n0\r\n\r\n")
    live = job_path(0, "/live/")
    t.ask(f"POST {live}in HTTP/1.1\nTransfer-Encoding: chunked", raw=b"3\r\n/l/\r\n8\r\nstor/x\ny\r\n0\r\n\r\n")
    t.brief("GET", f"{live}fail")
    for target in ("/l/jobs", f"{live}in", f"{live}in/end", f"{live}cancel"):
        for raw in (b"5\r\nhel", b"5\r\nhello\r\n", b"5\r\nhelloX", b"g\r\n", b"", b"5\r\nhello\r\n1000001\r\n"):
            t.ask(f"POST {target} HTTP/1.1\nTransfer-Encoding: chunked", raw=raw)
        t.ask(f"POST {target} HTTP/1.1\nContent-Length: 9", raw=b"hello")
        t.ask(f"POST {target} HTTP/1.1\nContent-Length: 16777217", raw=b"hello")
    t.ask(f"POST {live}in HTTP/1.1\nContent-Length: 9\nContent-MD5: x", raw=b"hello")
    t.brief("POST", f"{live}in", b"x" * 4_097)
    t.brief("GET", f"{live}fail")
    t.brief("POST", f"{live}in", b"y" * 70_000)
    t.brief("GET", f"{live}status")
    t.note("One line more than a job takes; and as many as it takes, for which the log has no room.")
    live = job_path(t.store.count, "/live/")
    t.brief("POST", "/l/jobs", CAT)
    t.post(f"{live}in", 1_000_001, b"x")
    t.post(f"{live}in", 1_000_000, b"x")
    t.brief("GET", f"{live}in")
    t.brief("GET", f"{live}fail")


def job_faults(t):
    t.note("A command on jobs is one record: its head, its bytes, the end, a sync, the gate and a sync. A text that isn't empty is one before it, head and bytes.")
    print("# The call that fails closes the store; when it is opened again, what was posted is there only where the last sync was the one that failed.")
    live = job_path(1, "/live/")
    lines = b"/l/stor/a\nno path\n"
    posts = (("/l/jobs", CAT, 6), (f"{live}in", lines, 6), (f"{live}in/end", b"", 6), (f"{live}cancel", b"", 14))
    for made, (target, body, calls) in enumerate(posts):
        for failing in range(calls):
            t.new()
            t.put("/l/stor/a", b"1")
            for before, data, _ in posts[:min(made, 2)]:
                t.brief("POST", before, data)
            print(f"fail disk {failing}")
            answered(f"try POST {target} {word(body)}", "Disk; closed")
            if failing == calls - 1:
                t.store.ask(t.request("POST", target, body, []))
            t.open()
            t.brief("GET", "/l/jobs?state=running")
            for text in ("status", "in", "fail")[:3 if made else 1]:
                t.brief("GET", live + text)
            if target.endswith("cancel"):
                t.brief("GET", job_path(1))
    t.note("A read of the source that fails within what is posted, behind those of the head, of a byte each: nothing is made, and nothing stays.")
    t.new()
    t.put("/l/stor/a", b"1")
    t.brief("POST", "/l/jobs", CAT)
    large = b'{"phases":[{"exec":"cat"}],"more":"' + b"x" * 150_000 + b'"}'
    for target, body in (("/l/jobs", large), (f"{live}in", b"x" * 150_000), (f"{live}in/end", b"x" * 150_000), (f"{live}cancel", b"x" * 150_000)):
        head = len(t.request("POST", target, body, [])) - len(body)
        for failing in (0, 1, 2):
            print(f"fail reads {head + failing}")
            answered(f"try POST {target} {word(body)}", f"SourceFault{t.after()}")
        t.brief("GET", f"{live}status")


def main():
    print("# Requests and what they are answered, by `python3 wanted.py`. `store`: a new one whose log may have so many bytes; `open`: the same")
    print("# opened again. `ask`: the request above it, the length of the log and the number of commands after it, and the reply. `try`: a")
    print("# request in a row, METHOD TARGET BODY FIELD .., and the status with what the reply holds, or the part of an object that it names.")
    print("# `post`: the same of a line that is posted so many times.")
    t = Table()
    for part in (objects, tree, pages, conditions, ranges, digests, targets, browsers, losing, two_at_once, space, endings, jobs, listings, job_targets, job_order, job_bodies, faults, job_faults):
        part(t)


main()
