#!/usr/bin/env python3
"""Prints the table of manta_rows with the wanted answers: a client of Python's json, urllib and uuid plays each run over the same
bytes, by the rules that the README of mt_client lists. Words and heads are those of ask_rows, which has its own table."""
import importlib.util
import json
import pathlib
import re

SPEC = importlib.util.spec_from_file_location("asked", pathlib.Path(__file__).parent.parent / "ask_rows" / "wanted.py")
asked = importlib.util.module_from_spec(SPEC)
SPEC.loader.exec_module(asked)

PAGE = "application/x-json-stream; type=directory"
USAGE = b"usage: manta --url HOST:PORT --login NAME COMMAND [ARGUMENTS]\n"
HEAD, BODY, OBJECT, INPUT, REQUESTS = 65536, 16777216, 1073741824, 16777216, 1000000
WANTED = {"list": 200, "find": 200, "get": 200, "put": 204, "make": 204, "remove": 204, "link": 204, "create": 201, "add": 204, "end": 202, "cancel": 202, "status": 200, "outputs": 200}


class Ends(Exception):
    """A run ends with a status."""


class World:
    """The ends of a run. Each call of one is counted, and those that are to fail do."""

    def __init__(self):
        self.replies, self.source, self.fails, self.most = b"", b"", set(), 1 << 64
        self.at, self.sent, self.written, self.source_at = 0, b"", b"", 0
        self.calls = {"read": 0, "write": 0, "sink": 0, "source": 0}

    def call(self, what, status):
        number = self.calls[what]
        self.calls[what] += 1
        if (what, number) in self.fails:
            raise Ends(status)

    def send(self, pieces):
        for piece in filter(None, pieces):
            self.call("write", 5)
            self.sent += piece

    def write(self, data):
        if data:
            self.call("sink", 4)
            self.written += data

    def read(self, size):
        self.call("read", 5)
        found = self.replies[self.at:self.at + min(size, self.most)]
        self.at += len(found)
        return found

    def one_head(self):
        """A head, of which each byte is read by a call."""
        text = bytearray()
        while not text.endswith(b"\r\n\r\n"):
            byte = self.read(1)
            if not byte or len(text) == HEAD:
                raise Ends(6)
            text += byte
        return bytes(text[:-4])

    def head(self):
        for _ in range(101):
            first, *lines = self.one_head().split(b"\r\n")
            found = re.fullmatch(rb"HTTP/1\.[01] ([0-9]{3})(?: .*)?", first)
            if not found:
                raise Ends(6)
            fields = [line.split(b":", 1) for line in lines]
            status = int(found[1])
            if not 100 <= status < 200:
                return status, [(name.lower(), value.strip(b" \t")) for name, value in fields]
        raise Ends(6)

    def length(self, status, fields, limit):
        if status in (204, 304):
            return 0
        values = [value for name, value in fields if name == b"content-length"]
        if len(values) != 1 or not re.fullmatch(rb"[0-9]{1,19}", values[0]) or int(values[0]) > limit:
            raise Ends(6)
        return int(values[0])

    def pieces(self, size, most):
        """The pieces of a body, each by a read of at most so many bytes."""
        while size:
            piece = self.read(min(size, most))
            if not piece:
                raise Ends(6)
            size -= len(piece)
            yield piece

    def body(self, size):
        return b"".join(self.pieces(size, 4096))

    def take_source(self):
        """The source is read by pieces of 4096 bytes, to its end, and no further than needed."""
        while self.source_at <= INPUT:
            self.call("source", 3)
            piece = self.source[self.source_at:self.source_at + 4096]
            if not piece:
                return self.source
            self.source_at += len(piece)
        raise Ends(9)


def first(fields, name):
    return next((value for key, value in fields if key == name), None)


def refused(world, body):
    try:
        value = json.loads(body.decode("utf-8"))
    except ValueError:
        raise Ends(6) from None
    if not isinstance(value, dict) or not isinstance(value.get("code"), str) or not isinstance(value.get("message"), str):
        raise Ends(6)
    world.write(f"{value['code']}: {value['message']}\n".encode())
    raise Ends(2)


def rows_of(directory, marker, body):
    lines = body.split(b"\n")
    if lines.pop():
        raise Ends(6)
    rows = []
    for line in lines:
        try:
            value = json.loads(line.decode("utf-8"))
        except ValueError:
            raise Ends(6) from None
        if not isinstance(value, dict) or value.get("type") not in ("object", "directory") or not isinstance(value.get("name"), str):
            raise Ends(6)
        name = value["name"]
        if not asked.is_component(name) or "/" in name or sum(len(n.encode()) + 1 for n in (*directory, name)) > 1024:
            raise Ends(6)
        rows.append((name, value["type"] == "directory"))
    names = [name.encode() for name, _ in rows]
    if names != sorted(set(names)) or names and marker is not None and names[0] < marker.encode():
        raise Ends(6)
    return rows


class Client:
    def __init__(self, world, read):
        self.world, self.read, self.requests = world, read, 0
        self.login, self.ask = read[1], read[2]
        # What the rows that came show, and is still to be written.
        self.text = ""

    def send(self, page, data):
        head = "".join(line + "\r\n" for line in asked.head_of(self.read, len(data), page)).encode()
        self.world.send([head, data])

    def page(self, directory, marker):
        self.say()
        if self.requests == REQUESTS:
            raise Ends(7)
        self.requests += 1
        self.send((directory, marker), b"")
        status, fields = self.world.head()
        body = self.world.body(self.world.length(status, fields, BODY))
        if status != 200:
            refused(self.world, body)
        if first(fields, b"content-type") != PAGE.encode():
            self.world.write(b"not a directory\n")
            raise Ends(2)
        return rows_of(directory, marker, body)

    def directory(self, directory, deep):
        """Lists a directory: a search goes into each directory at its row."""
        marker, more = None, True
        while more:
            rows = self.page(directory, marker)
            more = len(rows) >= 256
            if rows and rows[0][0] == marker:
                del rows[0]
            for name, is_directory in rows:
                marker = name
                if deep:
                    self.text += asked.text_of(self.login, (*directory, name)) + "\n"
                    if is_directory:
                        self.directory((*directory, name), deep)
                else:
                    self.text += name + "/" * is_directory + "\n"

    def say(self):
        """What the rows show is written once the next page is due, or none is."""
        self.world.write(self.text.encode())
        self.text = ""

    def once(self, data):
        kind = self.ask[0]
        self.send(None, data)
        status, fields = self.world.head()
        size = self.world.length(status, fields, OBJECT if kind == "get" else BODY)
        if kind == "get" and status == 200:
            for piece in self.world.pieces(size, 65536):
                self.world.write(piece)
            raise Ends(0)
        body = self.world.body(size)
        if status != WANTED[kind]:
            refused(self.world, body)
        if kind == "create":
            found = re.fullmatch(f"/{self.login}/jobs/(.*)".encode(), first(fields, b"location") or b"", re.S)
            if not found or asked.number_of(2, found[1].decode("latin-1")) is None:
                raise Ends(6)
            self.world.write(found[1] + b"\n")
        if kind in ("status", "outputs"):
            self.world.write(body + b"\n" * (kind == "status"))
        raise Ends(0)

    def play(self, data):
        if self.ask[0] in ("list", "find"):
            self.directory(tuple(self.ask[1]), self.ask[0] == "find")
            self.say()
            raise Ends(0)
        self.once(data)


def status_of(world, said):
    try:
        read = asked.words_of(said)
        if not read:
            world.write(USAGE)
            raise Ends(1)
        data = world.take_source() if read[2][0] in ("put", "create", "add") else b""
        Client(world, read).play(data)
    except Ends as end:
        return end.args[0]
    raise AssertionError


# ---- the table

WORLD = World()


def new(title):
    global WORLD
    WORLD = World()
    print(f"\n# {title}\nnew")


def line(text):
    print(f"> {text}" if text else ">")
    WORLD.replies += text.encode() + b"\r\n"


def put(data):
    print(f">| {asked.escaped(data).replace(' ', chr(92) + 's')}")
    WORLD.replies += data


def many(count, data, into="many"):
    print(f"{into} {count} {asked.word(data)}")
    if into == "many":
        WORLD.replies += count * data.encode()
    else:
        WORLD.source += count * data.encode()


def source(text):
    many(1, text, "source")


def page_bytes(names):
    body = "".join(json.dumps({"name": name.rstrip("/"), "type": "directory" if name.endswith("/") else "object"}, separators=(",", ":")) + "\n" for name in names)
    return f"HTTP/1.1 200 OK\r\nContent-Length: {len(body)}\r\nContent-Type: {PAGE}\r\n\r\n{body}".encode()


def page(*names):
    print(" ".join(("page", *names)))
    WORLD.replies += page_bytes(names)


def objects(low, high):
    print(f"objects {low} {high}")
    WORLD.replies += page_bytes([f"o{number:04}" for number in range(low, high)])


def reply(status, fields, body=b""):
    line(f"HTTP/1.1 {status} X")
    for name, value in fields:
        line(f"{name}: {value}".rstrip())
    line("")
    if body:
        put(body)


def sized(status, body, *fields):
    reply(status, (("Content-Length", len(body)), *fields), body)


def fail(what, number):
    print(f"fail {what} {number}")
    WORLD.fails.add((what, number))


def most(count):
    print(f"most {count}")
    WORLD.most = count


def copied():
    """A copy of what stands there, of which nothing was called yet."""
    world = World()
    world.replies, world.source, world.fails, world.most = WORLD.replies, WORLD.source, WORLD.fails, WORLD.most
    return world


def played(call, said):
    """A run, over a copy of what stands there."""
    world = copied()
    status = status_of(world, said)
    left, rest = len(world.replies) - world.at, len(world.source) - world.source_at
    asked.row(" ".join((call, *map(asked.word, said))), f"{status}, sent {len(world.sent)}, written {len(world.written)}, left {left} and {rest}" + (f", ..{asked.escaped(world.written[-20:])}" if call == "last" else ""))
    return world


def run(*said, host="h:1", login="l"):
    world = played("run", ["--url", host, "--login", login, *said])
    for text in re.findall(rb"[^\n]*\n|[^\n]+$", world.sent):
        if text.endswith(b"\r\n"):
            front = asked.escaped(text[:-2])
            print(f"    < {front}" if front else "    <")
        else:
            print(f"    <| {asked.escaped(text)}")
    if world.written:
        print(f"    = {asked.escaped(world.written)}")


def last(*said):
    played("last", ["--url", "h:1", "--login", "l", *said])


def each(what, *said):
    """The last call of an end fails, and then each one before it in turn."""
    world = copied()
    status_of(world, ["--url", "h:1", "--login", "l", *said])
    for number in reversed(range(world.calls[what])):
        fail(what, number)
        last(*said)


REFUSAL = b'{"code":"ResourceNotFound","message":"no such resource"}'
JOB = asked.identifier(2, 4096)


def usage():
    new("Words that are none: nothing is read or sent.")
    source("hello")
    run("mls")
    run("mput", "/l/stor/a", "b")
    run("mls", "/l/stor", host="h 1")
    fail("sink", 0)
    run("mls")


def puts():
    new("An object is put: its head and its bytes, in two writes.")
    reply(204, [])
    source("hello")
    run("mput", "~~/stor/a")
    new("One without bytes.")
    reply(204, [])
    run("mput", "~~/stor/a")
    new("The largest source, and one byte more: then nothing is sent.")
    reply(204, [])
    many(256, "a" * 65536, "source")
    last("mput", "~~/stor/a")
    source("a")
    last("mput", "~~/stor/a")
    last("mjob", "create")
    last("mjob", "add", JOB)
    last("mrm", "~~/stor/a")
    new("A source that fails.")
    reply(204, [])
    source("hello")
    fail("source", 0)
    run("mput", "~~/stor/a")
    run("mmkdir", "~~/stor/a")
    new("A link that fails before the head, and before the body.")
    reply(204, [])
    source("hello")
    fail("write", 0)
    run("mput", "~~/stor/a")
    new("The second.")
    reply(204, [])
    source("hello")
    fail("write", 1)
    run("mput", "~~/stor/a")
    run("mmkdir", "~~/stor/a")
    new("And before the reply.")
    reply(204, [])
    source("hello")
    fail("read", 0)
    run("mput", "~~/stor/a")
    run("mls", "~~/stor")


def others():
    new("A directory, a link, a deletion.")
    reply(204, [])
    run("mmkdir", "~~/stor/a b")
    run("mln", "~~/stor/a", "~~/stor/b")
    run("mrm", "~~/stor/a")
    for status in (200, 201, 202, 205, 304):
        new(f"Status {status} is none of theirs.")
        sized(status, b"")
        run("mrm", "~~/stor/a")
    new("No reply.")
    run("mrm", "~~/stor/a")
    new("A job is made.")
    sized(201, b"", ("Location", f"/l/jobs/{JOB}"))
    source("{}")
    run("mjob", "create")
    new("The first location counts.")
    sized(201, b"", ("Location", f"/l/jobs/{JOB}"), ("Location", "/"))
    run("mjob", "create")
    for place in ("/", "/l/jobs/", f"/m/jobs/{JOB}", f"/l/stor/{JOB}", f"/l/jobs/{JOB}/", f"/l/jobs/{asked.identifier(1, 4096)}", f"/l/jobs/{JOB.upper()}x", JOB):
        new("A location that is none of a job.")
        sized(201, b"", ("Location", place))
        run("mjob", "create")
    new("None.")
    sized(201, b"")
    run("mjob", "create")
    new("Words of a job.")
    reply(204, [])
    source("/l/stor/a\n")
    run("mjob", "add", JOB)
    new("Its input ends, and it is cancelled.")
    sized(202, b"")
    run("mjob", "end", JOB)
    run("mjob", "cancel", JOB)
    new("Its status has no line feed, its outputs have.")
    sized(200, b'{"state":"done"}')
    run("mjob", "get", JOB)
    run("mjob", "out", JOB)


def gets():
    new("An object.")
    sized(200, b"hello\nyou")
    line("behind")
    run("mget", "~~/stor/a")
    new("One without bytes.")
    sized(200, b"")
    run("mget", "~~/stor/a")
    new("One that is cut off: its front is written.")
    reply(200, [("Content-Length", 10)], b"hello")
    run("mget", "~~/stor/a")
    new("A refusal.")
    sized(404, REFUSAL)
    run("mget", "~~/stor/a")
    fail("sink", 0)
    run("mget", "~~/stor/a")
    new("A sink that fails.")
    sized(200, b"hello")
    fail("sink", 0)
    run("mget", "~~/stor/a")
    new("Another status without a refusal.")
    sized(206, b"hello")
    run("mget", "~~/stor/a")
    new("100 interim heads, and 101.")
    many(100, "HTTP/1.1 100 Continue\r\n\r\n")
    sized(200, b"hello")
    run("mget", "~~/stor/a")
    new("101.")
    many(101, "HTTP/1.1 100 Continue\r\n\r\n")
    sized(200, b"hello")
    run("mget", "~~/stor/a")
    for length in ("", "5, 5", "+5", "0x5", "12345678901234567890", "1073741825", "99999999999999999999"):
        new("A length that is none, or above the limit.")
        reply(200, [("Content-Length", length)], b"hello")
        run("mget", "~~/stor/a")
    new("Two lengths.")
    reply(200, [("Content-Length", 5), ("Content-Length", 5)], b"hello")
    run("mget", "~~/stor/a")
    new("None: in pieces.")
    reply(200, [("Transfer-Encoding", "chunked")], b"5\r\nhello\r\n0\r\n\r\n")
    run("mget", "~~/stor/a")
    new("No reply: a head that is cut off, and one that is none.")
    put(b"HTTP/1.1 200 OK\r\nContent-Le")
    run("mget", "~~/stor/a")
    new("None.")
    line("HTTP/2 200 OK")
    line("")
    run("mget", "~~/stor/a")


def refusals():
    for body in (REFUSAL, b'{"message":"b","code":"a"}', b'{"code":"a","message":"b","more":1}', b'{"code":"","message":""}', '{"code":"ä","message":"b\\nc"}'.encode()):
        new("A refusal.")
        sized(409, body)
        run("mrm", "~~/stor/a")
        run("mls", "~~/stor/a")
    for body in (b"", b"no", b"[]", b'{"code":"a"}', b'{"message":"b"}', b'{"code":1,"message":"b"}', b'{"code":"a","message":null}', b'{"code":"a","message":"b"', b'"\xff"'):
        new("None.")
        sized(409, body)
        run("mrm", "~~/stor/a")
        run("mls", "~~/stor/a")


def lists():
    new("A directory.")
    page("a", "b/", "c")
    run("mls", "~~/stor/d")
    run("mfind", "~~/stor/d")
    new("An empty one.")
    page()
    run("mls", "~~/stor/d")
    new("A page of 255 rows is the last.")
    objects(0, 255)
    page("x")
    last("mls", "~~/stor/d")
    new("A page of 256 rows isn't.")
    objects(0, 256)
    page()
    last("mls", "~~/stor/d")
    last("mfind", "~~/stor/d")
    new("The marker's own row is not shown twice, and counts as a row of its page.")
    objects(0, 256)
    objects(255, 300)
    last("mls", "~~/stor/d")
    last("mfind", "~~/stor/d")
    new("Three pages.")
    objects(0, 256)
    objects(255, 511)
    page("o0510")
    last("mls", "~~/stor/d")
    new("A marker that is gone.")
    objects(0, 256)
    page("o0255x")
    last("mls", "~~/stor/d")
    new("A row below the marker.")
    objects(0, 256)
    page("o0254")
    last("mls", "~~/stor/d")
    new("A second page that is missing.")
    objects(0, 256)
    last("mls", "~~/stor/d")
    new("An object.")
    sized(200, b"hello", ("Content-Type", "text/plain"))
    run("mls", "~~/stor/d")
    run("mfind", "~~/stor/d")
    new("A page without a type.")
    sized(200, b"")
    run("mls", "~~/stor/d")
    new("A type in other words.")
    sized(200, b"", ("Content-Type", "application/x-json-stream;type=directory"))
    run("mls", "~~/stor/d")
    for body in (b'{"name":"a","type":"object"}', b'{"name":"b","type":"object"}\n{"name":"a","type":"object"}\n', b'{"name":"a","type":"object"}\n{"name":"a","type":"object"}\n', b'{"name":"a/b","type":"object"}\n',
                 b'{"name":"a","type":"link"}\n', b'{"name":"a"}\n', b"\n", b'{"name":"..","type":"directory"}\n'):
        new("A page that is none: no row of it is shown.")
        sized(200, b'{"name":"A","type":"object"}\n' + body, ("Content-Type", PAGE))
        run("mls", "~~/stor/d")
    new("A sink that fails.")
    page("a")
    fail("sink", 0)
    run("mls", "~~/stor/d")


def finds():
    new("A tree: a directory stands before what is in it.")
    page("a/", "b", "c/")
    page("x", "y/")
    page()
    page("z")
    run("mfind", "~~/stor")
    run("mls", "~~/stor")
    new("Directories of two pages in one another.")
    page(*[f"d{number:03}{'/' if number == 200 else ''}" for number in range(256)])
    page("e/")
    page("f")
    page("d255", "d256/")
    page()
    last("mfind", "~~/stor")
    new("A directory that is gone ends the search.")
    page("a/", "b")
    sized(404, REFUSAL)
    run("mfind", "~~/stor")
    new("A directory that has become an object, too.")
    page("a/", "b")
    sized(200, b"hello", ("Content-Type", "text/plain"))
    run("mfind", "~~/stor")
    new("A path of 1,024 bytes, and one that would have more.")
    page("a" * 254 + "/")
    page("b" * 254 + "/")
    page("c" * 254 + "/")
    page("d" * 253)
    last("mfind", "~~/stor")
    new("One more.")
    page("a" * 254 + "/")
    page("b" * 254 + "/")
    page("c" * 254 + "/")
    page("d" * 254)
    last("mfind", "~~/stor")
    new("Reads of one byte.")
    most(1)
    page("a/", "b")
    page("c")
    run("mfind", "~~/stor")


def two_pieces_to_put():
    reply(204, [])
    many(5000, "a", "source")


def three_pieces_to_get():
    reply(200, [("Content-Length", 131073)])
    many(2, "a" * 65536)
    many(1, "a")


def refusal():
    sized(404, REFUSAL)


def job():
    sized(201, b"", ("Location", f"/l/jobs/{JOB}"))
    source("{}")


def two_directories():
    page("a/", "b")
    page("c")


def two_pages():
    objects(0, 256)
    page("o0255", "o0256")


CALLS = {"source": "read of the source", "write": "write to the link", "read": "read of the link", "sink": "write to the sink"}
FAULTS = (
    ("An object is put", two_pieces_to_put, ("mput", "~~/stor/a"), ("source", "write", "read")),
    ("An object is got", three_pieces_to_get, ("mget", "~~/stor/a"), ("write", "read", "sink")),
    ("A refusal", refusal, ("mget", "~~/stor/a"), ("write", "read", "sink")),
    ("A job is made", job, ("mjob", "create"), ("source", "write", "sink")),
    ("A search through two directories", two_directories, ("mfind", "~~/stor"), ("write", "read", "sink")),
    ("A directory of two pages", two_pages, ("mls", "~~/stor/d"), ("write", "sink")),
)


def faults():
    for title, stands, said, ends in FAULTS:
        for what in ends:
            new(f"{title}: the last {CALLS[what]} fails, and then each one before it.")
            stands()
            each(what, *said)


if __name__ == "__main__":
    print("# Runs of a client. An answer: the status, how many bytes were sent and written, how many are left on the link and in the source;")
    print("# then what was sent, line by line, and what was written.")
    usage()
    puts()
    others()
    gets()
    refusals()
    lists()
    finds()
    faults()
