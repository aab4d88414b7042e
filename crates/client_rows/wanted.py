#!/usr/bin/env python3
"""Prints the table of client_rows with the wanted answers: values by Python's json, and replies by patterns of RFC 9112, each regular one checked by Python's http.client too."""
import http.client
import io
import json
import re

FIELDS, HEAD_BYTES, INTERIM = 100, 65536, 100
STATUS = re.compile(rb"HTTP/1\.[01] ([0-9]{3})(?: [\t\x20-\x7e\x80-\xff]*)?\r?\n")
FIELD = re.compile(rb"([!#$%&'*+\-.^_`|~0-9A-Za-z]+):([\t\x20-\x7e\x80-\xff]*)\r?\n")


def escaped(data):
    out = []
    for b in data:
        out.append({9: "\\t", 10: "\\n", 13: "\\r", 92: "\\x5c"}.get(b) or (chr(b) if 32 <= b <= 126 else f"\\x{b:02x}"))
    if out and out[-1] == " ":
        out[-1] = "\\s"
    return "".join(out)


def word(data):
    return escaped(data).replace(" ", "\\s") or "\\e"


def row(call, answer):
    print(f"{call:<48} => {answer}")


def say(text):
    print(f"# {text}")


# ---- values


def refuse(text):
    raise ValueError(text)


def plain(number):
    return int(number) if -(2**63) <= int(number) < 2**64 else refuse(number)


def value_of(data):
    """The compact text of the value that bytes are, or none."""
    try:
        value = json.loads(data.decode("utf-8"), parse_constant=refuse, parse_int=plain)
    except (ValueError, RecursionError):
        return "none"
    return escaped(json.dumps(value, ensure_ascii=False, separators=(",", ":"), sort_keys=True).encode())


def value(text):
    if "\\" in text:
        return value_bytes(text.encode())
    row(f"value {text}", value_of(text.encode()))


def value_bytes(data):
    row(f"value-bytes {word(data)}", value_of(data))


def first(data):
    line, feed, rest = data.partition(b"\n")
    row(f"first {word(data)}", f"[{escaped(line)}] [{escaped(rest)}]" if feed else "none")


def values():
    say("Values: numbers are whole here, and keys are shown in the order of their bytes.")
    for text in ["null", "true", "false", "0", "7", "-7", "18446744073709551615", "-9223372036854775808", '""', '"a"', "[]", "{}", "[1,[2,[]],{}]",
                 '{"name":"a","type":"object"}', '{"type":"object","name":"a"}', '{"b":1,"a":2,"B":3}', '{"a":1,"a":2}', '{"a":{"a":null,"b":[]},"":0}',
                 ' { "a" : [ 1 , 2 ] } ', '"\\u0041\\/\\n"', '"\\""', '"ä"', '"\\u00e4"', '"\\ud83d\\ude00"']:
        value(text)
    say("None.")
    for text in ["", " ", "nul", "True", "NaN", "01", "+1", "1.", ".5", "0x1", "'a'", '"a', '"\t"', '"\\x41"', "[1,]", "[1 2]", "[", "]", "{", '{"a"}', '{"a":}', '{"a":1,}', "{a:1}",
                 "{} {}", "{},", "1 2", "/**/1", "[1]//"]:
        value(text)
    for data in [b'"\xff"', b'"\xc3"', b"\xef\xbb\xbf{}", b"{}\x00", b'"\x00"', b'"\x1f"', b"\xff"]:
        value_bytes(data)
    for data in [b"{}\n", b"\t{}\r\n", b'"\x7f"', b'"\xf0\x9f\x98\x80"']:
        value_bytes(data)
    say("127 lists in one another, and 128.")
    value("[" * 127 + "]" * 127)
    row("value " + "[" * 128 + "]" * 128, "none")
    say("Lines.")
    for data in [b"", b"a", b"\n", b"\n\n", b"a\n", b"a\nb", b"a\nb\n", b"\na", b"a\r\nb", b"\x00\n\x00", b"a b\n c "]:
        first(data)


# ---- pages


def is_component(name):
    return 1 <= len(name) <= 255 and name not in (b".", b"..") and not any(b < 32 or b in (47, 127) for b in name)


def row_of(directory, line):
    """The name and the kind of a line, or an error."""
    found = json.loads(line.decode("utf-8"), parse_constant=refuse, parse_int=plain)
    if not isinstance(found, dict) or not isinstance(found.get("name"), str) or found.get("type") not in ("object", "directory"):
        raise ValueError(line)
    name = found["name"].encode("utf-8")
    if not is_component(name) or len(directory[2:]) + 1 + len(name) > 1024:
        raise ValueError(name)
    return name, "/" if found["type"] == "directory" else ""


def page_of(directory, marker, data):
    lines = data.split(b"\n")
    if lines.pop():
        return "none"
    try:
        rows = [row_of(directory, line) for line in lines]
    except (ValueError, RecursionError):
        return "none"
    names = [name for name, kind in rows]
    if names != sorted(set(names)) or names and names[0] < marker:
        return "none"
    return f"{len(rows)}:" + "".join(f" {escaped(name)}{kind}" for name, kind in rows)


def page(data, directory=b"/l/stor", marker=b""):
    row(f"page {word(directory)} {word(marker)} {word(data)}", page_of(directory, marker, data))


def line(name, kind="object", **more):
    return json.dumps({**more, "name": name, "type": kind}, ensure_ascii=False, separators=(",", ":"), sort_keys=True).encode() + b"\n"


def pages():
    say("Pages: as the store sends them.")
    stored = line("a", etag="00000001-0000-8000-8000-000000001000", mtime="1970-01-01T00:00:00.000Z", size=5) + line("b c", "directory", mtime="1970-01-01T00:00:00.000Z")
    for data in [b"", stored, stored + line("d"), line("a") + line("b"), line("a", "directory"), line("\u00e4") + line("\U0001f600"), line("A") + line("a") + line("aa") + line("b")]:
        page(data)
    say("A marker: its own row may be the first.")
    for marker in [b"", b"a", b"aa", b"ab", b"b", b"c"]:
        page(line("aa") + line("b"), marker=marker)
    page(b"", marker=b"a")
    page(line("a") + line("b") + line("a"), marker=b"a")
    page(line("b") + line("a"), marker=b"a")
    say("Names that don't rise.")
    for names in ["aa", "ba", "aba", "abb", "acb"]:
        page(b"".join(line(name) for name in names))
    page(line("b") + line("B"))
    say("Lines that are no rows.")
    for data in [b"\n", b"{}\n", b"[]\n", b"null\n", b"1\n", b"{\n", b'{"name":"a"}\n', b'{"type":"object"}\n', b'{"name":1,"type":"object"}\n', b'{"name":null,"type":"object"}\n', b'{"name":"a","type":null}\n',
                 b'{"name":"a","type":"link"}\n', b'{"name":"a","type":"Object"}\n', b'{"name":"a","type":""}\n', b'{"Name":"a","type":"object"}\n', b'{"name":"a","type":"object"}', b'{"name":"a","type":"object"}\n\n',
                 b'\n{"name":"a","type":"object"}\n', b'{"name":"a","type":"object"} {}\n', b'{"name":"a","type":"object"}{"name":"b","type":"object"}\n', b'{"name":"\xff","type":"object"}\n', b'\xef\xbb\xbf{"name":"a","type":"object"}\n']:
        page(data)
        page(data + line("b"))
        page(line("A") + data)
    say("Lines that are, and not as the store sends them.")
    for data in [b'{"name":"a","type":"object"}\r\n', b' { "type" : "object" , "name" : "a" } \n', b'{"name":"b","name":"a","type":"link","type":"object"}\n', b'{"name":"a","type":"object","x":[{}]}\n', b'{"name":"\\u0061","type":"\\u006fbject"}\n']:
        page(data)
    say("Names: a component, with which the path is within its limit.")
    for name in ["", ".", "..", "...", "a/b", "/", "~~", "a\x00", "a\n", "a\x7f", "a" * 255, "a" * 256, "%2f", "\\"]:
        page(line(name))
    for count in (14, 15):
        page(line("a" * count), directory=b"/l/stor" + 4 * (b"/" + b"d" * 250))


# ---- replies


class NoReply(Exception):
    pass


def one_head(data):
    """The status and the fields of the head at the front, and what stands behind it."""
    rest = re.sub(rb"\A(?:\r?\n)*", b"", data)
    end = re.search(rb"\n\r?\n", rest)
    if not end or len(data) - len(rest) + end.end() > HEAD_BYTES:
        raise NoReply
    text, behind = rest[:end.end()], rest[end.end():]
    status = STATUS.match(text)
    if not status:
        raise NoReply
    place, fields = status.end(), []
    while not re.fullmatch(rb"\r?\n", text[place:]):
        found = FIELD.match(text, place)
        if not found:
            raise NoReply
        fields.append((found[1].lower(), found[2].strip(b" \t")))
        place = found.end()
    if len(fields) > FIELDS:
        raise NoReply
    return int(status[1]), fields, behind


def head_of(data):
    for _ in range(INTERIM + 1):
        status, fields, data = one_head(data)
        if not 100 <= status < 200:
            return status, fields, data
    raise NoReply


def length_of(status, fields, limit, bare):
    if bare or status in (204, 304):
        return 0
    told = [value for name, value in fields if name == b"content-length"]
    if len(told) != 1 or not re.fullmatch(rb"[0-9]{1,19}", told[0]) or int(told[0]) > limit:
        return None
    return int(told[0])


class Reads:
    """A socket of which http.client reads."""

    def __init__(self, data):
        self.data = data

    def makefile(self, mode):
        return io.BytesIO(self.data)


def check_by_client(data, status, fields, body):
    reply = http.client.HTTPResponse(Reads(data))
    reply.begin()
    theirs = [(name.lower().encode("latin-1"), value.encode("latin-1")) for name, value in reply.getheaders()]
    assert (reply.status, theirs, reply.read()) == (status, fields, body), (data, reply.status, theirs)


class Link:
    """The rows of one link."""

    def __init__(self, data=b"", title=None):
        if title:
            say(title)
        print("new")
        self.data = b""
        self.put(data)

    def put(self, data):
        for line in data.split(b"\n"):
            whole, line = line.endswith(b"\r"), line.removesuffix(b"\r")
            if whole and line == escaped(line).encode() and b"  " not in line:
                print(f"> {line.decode()}".rstrip())
                self.data += line + b"\r\n"
            else:
                self.bytes((line + b"\r" if whole else line) + (b"\n" if data.count(b"\n") else b""))
            data = data.partition(b"\n")[2]

    def bytes(self, data):
        if data:
            print(f">| {word(data)}")
            self.data += data

    def many(self, times, data):
        print(f"many {times} {word(data)}")
        self.data += times * data

    def head(self):
        try:
            status, fields, rest = head_of(self.data)
            shown = "".join(f"; {escaped(name)}: {escaped(value)}" for name, value in fields)
            row("head", f"{status}{shown}; left {len(rest)}")
        except NoReply:
            row("head", "NoReply")

    def reply(self, limit=16777216, bare=False, regular=False):
        call = f"reply {limit}" + (" bare" if bare else "")
        try:
            status, fields, rest = head_of(self.data)
        except NoReply:
            return row(call, "NoReply")
        size = length_of(status, fields, limit, bare)
        if size is None:
            return row(call, f"{status} no length")
        if size > len(rest):
            return row(call, f"{status} {size} NoReply")
        if regular:
            check_by_client(self.data, status, fields, rest[:size])
        row(call, f"{status} {size} [{escaped(rest[:size])}] left {len(rest) - size}")

    def is_reply(self, data, limit):
        try:
            status, fields, rest = head_of(data)
        except NoReply:
            return False
        size = length_of(status, fields, limit, False)
        return size is not None and size <= len(rest)

    def cuts(self, limit=16777216):
        good = [self.is_reply(self.data[:cut], limit) for cut in range(len(self.data) + 1)]
        assert good == sorted(good)
        row(f"cuts {limit}", f"from {good.index(True)} on" if True in good else "never")


# The tag that nginx gives a file is the moment of its last change, in seconds since 1970, and its length, both in hexadecimal.
NGINX = (b"HTTP/1.1 200 OK\r\nServer: nginx/1.22.1\r\nDate: Mon, 30 Nov 2026 05:00:00 GMT\r\nContent-Type: text/plain\r\nContent-Length: 6\r\n"
         b"Last-Modified: Mon, 30 Nov 2026 04:59:00 GMT\r\nConnection: keep-alive\r\nETag: \"6b0d0294-6\"\r\nAccept-Ranges: bytes\r\n\r\nhello\n")
PYTHON = (b"HTTP/1.0 200 OK\r\nServer: SimpleHTTP/0.6 Python/3.11.2\r\nDate: Mon, 30 Nov 2026 05:00:00 GMT\r\nContent-type: application/octet-stream\r\n"
          b"Content-Length: 6\r\nLast-Modified: Mon, 30 Nov 2026 04:59:00 GMT\r\n\r\nhello\n")
NOT_FOUND = (b"HTTP/1.1 404 Not Found\r\ncontent-length: 61\r\ncontent-type: application/json\r\n\r\n"
             b'{"code":"ResourceNotFound","message":"no such resource there"}'[:-1] + b"}")
GO_ON = b"HTTP/1.1 100 Continue\r\n\r\n"
OK = b"HTTP/1.1 200 OK\r\ncontent-length: 5\r\n\r\nhello"


def regular():
    for title, data in [("As nginx sends them.", NGINX), ("As Python's http.server sends them.", PYTHON), ("An error.", NOT_FOUND)]:
        link = Link(data, title)
        link.head()
        link.reply(regular=True)
        link.cuts()
    link = Link(b"HTTP/1.1 204 No Content\r\netag: \"a\"\r\n\r\nHTTP/1.1 200 OK\r\n", "No body, and the next reply behind it.")
    link.reply(regular=True)
    link.cuts()
    link = Link(b"HTTP/1.1 304 Not Modified\r\ncontent-length: 5\r\n\r\nhello", "A length that tells of no body: of 304, and of a bare reply.")
    link.reply()
    link = Link(OK)
    link.reply(regular=True)
    link.reply(bare=True)
    link = Link(GO_ON + GO_ON + OK, "Interim heads, which the reply comes behind.")
    link.head()
    link.reply(regular=True)
    link.cuts()
    for status, name in [(100, "Continue"), (102, "Processing"), (103, "Early Hints"), (199, "x"), (99, "x"), (200, "OK"), (0, "x"), (999, "x")]:
        Link(f"HTTP/1.1 {status:03} {name}\r\ncontent-length: 0\r\n\r\n".encode() + OK).reply()


def many():
    for count in (100, 101):
        link = Link(title=f"{count} interim heads.")
        link.many(count, GO_ON)
        link.put(OK)
        link.head()
        link.reply()
    for count in (100, 101):
        link = Link(b"HTTP/1.1 200 OK\r\n", f"{count} fields.")
        link.many(count - 1, b"a:\r\n")
        link.put(b"content-length: 5\r\n\r\nhello")
        link.reply()
    for count in (HEAD_BYTES, HEAD_BYTES + 1):
        link = Link(title=f"{count} bytes of a head, with the empty lines before it.")
        front, back = b"\r\nHTTP/1.1 200 OK\r\na: ", b"\r\ncontent-length: 5\r\n\r\n"
        link.bytes(front)
        link.many(count - len(front) - len(back), b"x")
        link.bytes(back + b"hello")
        link.reply()


def lengths():
    say("Lengths.")
    for value in [b"0", b"5", b"05", b"0000000000000000005", b"00000000000000000005", b"", b"+5", b"-5", b" 5 ", b"\t5", b"5,5", b"5 5", b"0x5", b"5.0", b"18446744073709551616", b"9999999999999999999", b"6"]:
        Link(b"HTTP/1.1 200 OK\r\ncontent-length:" + value + b"\r\n\r\nhello").reply()
    for fields in [b"", b"content-length: 5\r\ncontent-length: 5\r\n", b"Content-Length: 5\r\n", b"transfer-encoding: chunked\r\n", b"transfer-encoding: chunked\r\ncontent-length: 5\r\n", b"content-length : 5\r\n"]:
        Link(b"HTTP/1.1 200 OK\r\n" + fields + b"\r\nhello").reply()
    say("Its limit.")
    for limit in (4, 5, 6, 18446744073709551615):
        Link(OK).reply(limit=limit)


def bad():
    say("What is no head of a reply.")
    for head in [b"", b"\r\n\r\n", b"HTTP/1.1 200 OK\r\n", b"HTTP/1.1 200 OK\n\n", b"HTTP/1.1 200\r\n\r\n", b"HTTP/1.1 200 \r\n\r\n", b"HTTP/1.0 200 OK\r\n\r\n", b"HTTP/1.2 200 OK\r\n\r\n", b"HTTP/2 200 OK\r\n\r\n",
                 b"http/1.1 200 OK\r\n\r\n", b"HTTP/1.1  200 OK\r\n\r\n", b"HTTP/1.1 20 OK\r\n\r\n", b"HTTP/1.1 2000 OK\r\n\r\n", b"HTTP/1.1 200 O\x00K\r\n\r\n", b"HTTP/1.1 200 \xc3\xa4\r\n\r\n", b" HTTP/1.1 200 OK\r\n\r\n",
                 b"HTTP/1.1 200 OK\r\na\r\n\r\n", b"HTTP/1.1 200 OK\r\n: b\r\n\r\n", b"HTTP/1.1 200 OK\r\na b: c\r\n\r\n", b"HTTP/1.1 200 OK\r\na: b\r\n c: d\r\n\r\n", b"HTTP/1.1 200 OK\r\na: \x01\r\n\r\n", b"HTTP/1.1 200 OK\r\na: \xff\r\n\r\n",
                 b"HTTP/1.1 200 OK\r\na:\r\n\r\n", b"HTTP/1.1 200 OK\r\nA:\t b \t\r\n\r\n", b"\r\n\nHTTP/1.1 200 OK\na: b\n\r\n", b"<html>\r\n\r\n", b"GET / HTTP/1.1\r\n\r\n"]:
        Link(head).head()


def copies():
    link = Link(b"hello, world", "Copies, by pieces of 7 bytes: all of it, a front of it, none of it; a link that ends.")
    for size, answer in [(12, "Whole [hello, world] left 0"), (5, "Whole [hello] left 7"), (0, "Whole [] left 12"), (13, "Ended(12) [hello, world] left 0")]:
        row(f"copy {size} 64", answer)
    say("A sink with less room.")
    for room, left in [(11, 0), (7, 0), (6, 5), (0, 5)]:
        row(f"copy 12 {room}", f"SinkFault [{escaped(b'hello, world'[:room])}] left {left}")
    say("Reads of 3 bytes at most, of which one fails.")
    print("most 3")
    row("copy 12 64", "Whole [hello, world] left 0")
    for read in range(5):
        print(f"fail {read}")
        row("copy 12 64", f"LinkFault({3 * read}) [{escaped(b'hello, world'[:3 * read])}] left {12 - 3 * read}" if read < 4 else "Whole [hello, world] left 0")
    link = Link(OK, "A reply by reads of 4 bytes at most, of which one fails: those of a head are of one byte each.")
    print("most 4")
    link.reply()
    end = len(OK) - 5
    for read in (0, 1, end - 1):
        print(f"fail {read}")
        row("reply 9", "LinkFault")
    for read in (end, end + 1):
        print(f"fail {read}")
        row("reply 9", "200 5 LinkFault")
    print(f"fail {end + 2}")
    row("reply 9", "200 5 [hello] left 0")


if __name__ == "__main__":
    values()
    pages()
    regular()
    many()
    lengths()
    bad()
    copies()
