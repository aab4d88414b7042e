#!/usr/bin/env python3
"""Prints the table of upload_rows with the wanted answers: documents are judged by Python's json, identifiers made by its uuid,
accounts kept as plain dictionaries, and logs written with struct and hashlib by docs/proof/FORMATS.md."""
import hashlib
import itertools
import json
import re
import struct
import uuid

LOGIN = "l"
USUAL = "application/octet-stream"
NO_PART = 2**64 - 1
PIECE = 65_536
SIZES = (0, 1, 65_535, 65_536, 65_537)


def escaped(data):
    out = []
    for b in data:
        out.append({9: "\\t", 10: "\\n", 13: "\\r", 92: "\\x5c"}.get(b) or (chr(b) if 32 <= b <= 126 else f"\\x{b:02x}"))
    return "".join(out)


def word(data):
    """Bytes as a word: a run of more than 40 times one byte is said as such."""
    return re.sub(r"((\w)\2{40,})", lambda it: f"\\*{len(it[1])}.{it[2]}", escaped(data).replace(" ", "\\s")) or "\\e"


def row(call, answer):
    print(f"{call:<48} => {answer}")


def identifier(kind, number):
    """The UUID of version 8 (RFC 9562, section 5.8) that holds a kind and a number."""
    return str(uuid.UUID(int=(kind << 96) | (0x8000 << 64) | (1 << 63) | number))


def number_of(kind, text):
    """The number of an identifier, by trying: it is that text alone."""
    found = re.fullmatch("[0-9a-f-]{19}([0-9a-f]{4})-([0-9a-f]{12})", text)
    if not found:
        return None
    number = int(found[1] + found[2], 16) - (1 << 63)
    return number if 0 <= number < 2**62 and identifier(kind, number) == text else None


def refuse(text):
    raise ValueError(text)


def finite(text):
    return float(text) if abs(float(text)) != float("inf") else refuse(text)


def depth(value):
    inner = value.values() if isinstance(value, dict) else value if isinstance(value, list) else None
    return 0 if inner is None else 1 + max(map(depth, inner), default=0)


def document(data):
    """The JSON object that bytes are."""
    try:
        value = json.loads(data.decode("utf-8"), parse_int=finite, parse_float=finite, parse_constant=refuse)
        json.dumps(value, ensure_ascii=False).encode("utf-8")  # a lone surrogate is no text
    except (ValueError, RecursionError):
        return None
    return value if isinstance(value, dict) and depth(value) <= 127 else None


def is_component(name):
    return 1 <= len(name.encode()) <= 255 and name not in (".", "..") and all(ord(c) >= 32 and c not in "/\x7f" for c in name)


def path(text):
    """The path that a text names, printed, or None."""
    pieces = [it for it in text.split("/") if it]
    if not text.startswith(("/", "~~/")) or not pieces:
        return None
    pieces[0] = LOGIN if pieces[0] == "~~" else pieces[0]
    if len("".join("/" + it for it in pieces[1:]).encode()) > 1024 or not all(map(is_component, pieces[2:])):
        return None
    if pieces[0] != LOGIN or len(pieces) < 2 or pieces[1] not in ("stor", "public", "jobs"):
        return None
    return "/" + "/".join(pieces)


def is_content_type(text):
    return len(text) <= 255 and all(" " <= c <= "~" for c in text) and not text.startswith(" ") and not text.endswith(" ")


def upload(data):
    asked = document(data)
    if asked is None or not isinstance(asked.get("objectPath"), str):
        return "none"
    kind = asked.get("contentType", USUAL)
    name = path(asked["objectPath"])
    if name is None or not isinstance(kind, str) or not is_content_type(kind):
        return "none"
    return f'{escaped(name.encode())} "{escaped(kind.encode())}"'


def runs(numbers):
    """Numbers, equal ones behind one another as one."""
    found = []
    for number in numbers:
        if found and found[-1][0] == number:
            found[-1][1] += 1
        else:
            found.append([number, 1])
    return "".join(f" {n}*{times}" if times > 1 else f" {n}" for n, times in found)


def numbers(data):
    asked = document(data)
    parts = None if asked is None else asked.get("parts")
    if not isinstance(parts, list) or len(parts) > 10000 or not all(isinstance(it, str) for it in parts):
        return "none"
    found = [number_of(1, it) for it in parts]
    return f"{len(parts)}:" + runs([NO_PART if it is None else it for it in found])


def shown(call, text, answer):
    data = text if isinstance(text, bytes) else text.encode()
    plain = all(32 <= b <= 126 for b in data) and len(data) < 700 and not data.endswith(b" ") and data and 92 not in data and b"=> " not in data
    if plain:
        row(f"{call} {data.decode()}", answer(data))
    else:
        row(f"{call}-bytes {word(data)}", answer(data))


def ask_upload(*texts):
    for text in texts:
        shown("upload", text, upload)


def ask_numbers(*texts):
    for text in texts:
        shown("numbers", text, numbers)


def uploads():
    at = '"objectPath":"/l/stor/a"'
    print("# An upload begins: its path and its content type.")
    ask_upload("{" + at + "}", "{" + at + ',"contentType":"text/plain"}', '{"contentType":"text/plain",' + at + "}", " { " + at + " } ", "{" + at + ',"parts":[],"x":{}}')
    print("# No object.")
    ask_upload("", "{", "[]", "null", "true", "1", '"a"', "[{" + at + "}]", "{" + at + "}}", "{" + at + "},", "{" + at + ",}", "{'objectPath':'/l/stor/a'}")
    ask_upload(b'\xef\xbb\xbf{"objectPath":"/l/stor/a"}', b'{"objectPath":"/l/stor/\xff"}', "{" + at + "}\n", "\t{" + at + "}", "{" + at + "}\0", "{" + at + ',"x":1e999}')
    ask_upload("{" + at + ',"x":' + "[" * 126 + "]" * 126 + "}", "{" + at + ',"x":' + "[" * 127 + "]" * 127 + "}")
    print("# Each key missing, null, of another form, in another case, twice.")
    ask_upload("{}", '{"contentType":"text/plain"}')
    for value in ("null", "true", "1", "[]", "{}", '["/l/stor/a"]', '""'):
        ask_upload('{"objectPath":' + value + "}", "{" + at + ',"contentType":' + value + "}")
    ask_upload('{"objectpath":"/l/stor/a"}', "{" + at + ',"contenttype":"text/plain"}', "{" + at + ',"content-type":"text/plain"}')
    ask_upload('{"objectPath":"/l/stor/b",' + at + "}", "{" + at + ',"objectPath":null}', '{"objectPath":null,' + at + "}")
    two = ',"contentType":"text/plain","contentType":'
    ask_upload("{" + at + two + '"text/html"}', "{" + at + two + "null}", "{" + at + ',"contentType":null,"contentType":"text/plain"}')
    ask_upload('{"object\\u0050ath":"\\/l\\/stor\\/\\u0061"}', "{" + at + ',"contentType":"\\u0061/b"}')
    print("# Paths: of this account, as they are printed or behind ~~. Whether an object may stand there is told later.")
    names = ["/l/stor/a/b", "~~/stor/a", "/~~/stor/a", "//l//stor//a/", "/l/public/a", "/l/jobs/a", "/l/stor", "/l/stor/", "/l", "/", "l/stor/a", "stor/a"]
    names += ["/m/stor/a", "/L/stor/a", "/l/other/a", "/l/uploads/a", "/l/Stor/a", "/l/stor/.", "/l/stor/../a", "/l/stor/...", "/l/stor/a%20b", "/l/stor/a b", " /l/stor/a", "/l/stor/a?b"]
    names += ["/l/stor/" + "a" * 255, "/l/stor/" + "a" * 256, "/l/stor" + ("/" + "a" * 253) * 4, "/l/stor" + ("/" + "a" * 253) * 4 + "b"]
    names += ["/l/stor/\u00e4\u20ac", "/l/stor/\x7f", "/l/stor/a\n", "/l/stor/a\0", "/l/stor/\U0001f600", "/l/stor/" + "\u00e4" * 127, "/l/stor/" + "\u00e4" * 128]
    for name in names:
        ask_upload(json.dumps({"objectPath": name}))
        if not name.isascii():
            ask_upload(json.dumps({"objectPath": name}, ensure_ascii=False))
    ask_upload('{"objectPath":"/l/stor/\\ud800"}', '{"objectPath":"/l/stor/\\udc00\\ud800"}', '{"objectPath":"/l/stor/\\x41"}')
    print("# Content types: at most 255 bytes of 32 to 126 with no space at either end.")
    kinds = ["", "a", "a b", " a", "a ", " ", "a\t", "a\n", "\x7f", "~", "!", "text/plain; charset=utf-8", "\u00e4", "a\0b", "x" * 255, "x" * 256, "\\", '"']
    ask_upload(*(json.dumps({"contentType": kind, "objectPath": "/l/stor/a"}) for kind in kinds))


def lists():
    one, two = identifier(1, 4096), identifier(1, 8192)
    print("# The parts that a commit lists, by their etags: the numbers of these. 18446744073709551615 stands for what is none.")
    ask_numbers('{"parts":[]}', f'{{"parts":["{one}"]}}', f'{{"parts":["{one}","{two}"]}}', f'{{"parts":["{two}","{one}"]}}', f'{{"parts":["{one}","{one}","{two}"]}}')
    ask_numbers(f' {{ "x":1, "parts" : [ "{one}" , "{two}" ] }} ', f'{{"parts":["{one}"],"Parts":null}}')
    print("# No object, no list, no texts.")
    ask_numbers("", "{", "[]", "null", f'["{one}"]', "{}", '{"parts":null}', '{"parts":true}', '{"parts":1}', '{"parts":{}}', '{"parts":""}', f'{{"parts":"{one}"}}', f'{{"parts":{{"0":"{one}"}}}}')
    ask_numbers(f'{{"Parts":["{one}"]}}', f'{{"part":["{one}"]}}', '{"parts":[}', '{"parts":["a",]}', f'{{"parts":["{one}"]}}x', b'{"parts":["\xff"]}')
    for value in ("null", "true", "4096", "[]", "{}", f'["{one}"]'):
        ask_numbers('{"parts":[' + value + "]}", f'{{"parts":["{one}",{value}]}}', f'{{"parts":[{value},"{one}"]}}')
    print("# Twice: the last stands.")
    ask_numbers(f'{{"parts":["{one}"],"parts":["{two}"]}}', f'{{"parts":["{one}"],"parts":null}}', f'{{"parts":null,"parts":["{two}"]}}')
    print("# Etags: of objects and parts alone, as they are printed, without quotes.")
    texts = ["", "a", "*", f'"{one}"', f'W/"{one}"', f" {one}", f"{one} ", "{" + one + "}", "urn:uuid:" + one, one.replace("-", ""), one[:-1], one + "0"]
    texts += [identifier(kind, 4096) for kind in (0, 2, 3, 4, 5, 257, 2**32 - 1)] + [identifier(1, n) for n in (0, 1, 4095, 2**62 - 1)]
    texts += ["00000001-0000-8000-c000-000000000000", "00000001-0000-8000-0000-000000001000", "00000001-0000-4000-8000-000000001000", "00000001-0001-8000-8000-000000001000"]
    texts += ["0000000a-0000-8000-8000-000000001000", identifier(1, 0xABCDEF), identifier(1, 0xABCDEF).upper(), "4096", "\u00e4", "\0", "\u0661" * 36]
    for text in texts:
        ask_numbers(json.dumps({"parts": [one, text, two]}))
    ask_numbers('{"parts":["' + one.replace("0", "\\u0030") + '"]}', '{"parts":["\\ud800"]}')
    print("# At most 10,000.")
    for count in (1, 2, 9999, 10000, 10001, 20000):
        for text in (one, "a"):
            row(f"listed {count} {text}", numbers(json.dumps({"parts": [text] * count}).encode()))


def states():
    print("# How an upload stands.")
    for number in (0, 4096, 2**62 - 4096):
        for stage in ("open", "committed", "aborted"):
            for parts in (0, 1, 10000):
                value = {"id": identifier(4, number), "objectPath": "/l/stor/a", "parts": parts, "state": stage}
                row(f"state {number} /l/stor/a {stage} {parts}", json.dumps(value, separators=(",", ":")))
    for name in ("/l/public/b/c", "/l/stor", "/l/jobs/a", '/l/stor/a"b', "/l/stor/a\\b", "/l/stor/a%20b", "/l/stor/a b", "/l/stor/\u00e4\u20ac", "/l/stor/</b>", "~~/stor/a", "/l/stor/" + "a" * 255):
        value = {"id": identifier(4, 4096), "objectPath": path(name), "parts": 2, "state": "open"}
        row(f"state 4096 {word(name.encode())} open 2", escaped(json.dumps(value, separators=(",", ":"), ensure_ascii=False).encode()))


class Account:
    """An account as plain dictionaries: its rows by their paths, and its uploads by their numbers."""

    def __init__(self):
        self.position = 0
        self.rows = {"/l/stor": 0, "/l/public": 0, "/l/jobs": 0}  # a directory is its moment, an object a list
        self.uploads = {}
        print("new")

    def change(self, call, refusal, made):
        if refusal is None:
            made(4096 * self.position, 1000 + self.position)
            self.position += 1
        row(call, refusal or f"at {self.position}")

    def no_object(self, name):
        """Why no object may be put there."""
        if name.count("/") == 2:
            return "RootDirectory"
        above = self.rows.get(name.rsplit("/", 1)[0])
        if above is None:
            return "DirectoryDoesNotExist"
        if isinstance(above, list):
            return "ParentNotDirectory"
        return "DirectoryOperation" if isinstance(self.rows.get(name), int) else None

    def put(self, name, length):
        def made(number, moment):
            self.rows[name] = [number, length, moment, "text/plain"]

        self.change(f"put {name} {length}", self.no_object(name), made)

    def directory(self, name):
        def made(number, moment):
            self.rows[name] = moment

        self.change(f"directory {name}", None, made)

    def remove(self, name):
        def made(number, moment):
            del self.rows[name]

        self.change(f"remove {name}", None, made)

    def begin(self, name, kind="text/plain"):
        def made(number, moment):
            self.uploads[number] = {"path": name, "type": kind, "moment": moment, "stage": "Open", "parts": {}}

        self.change(f"begin {name} {word(kind.encode())}", "RootDirectory" if name.startswith("/l/jobs") or name.count("/") == 2 else None, made)

    def not_open(self, upload):
        if upload not in self.uploads:
            return "UploadNotFound"
        return None if self.uploads[upload]["stage"] == "Open" else "UploadState"

    def part(self, upload, index, length):
        def made(number, moment):
            self.uploads[upload]["parts"][index] = (number, length)

        self.change(f"part {upload} {index} {length}", self.not_open(upload), made)

    def fall(self, upload, count, length):
        for index in reversed(range(count)):
            self.uploads[upload]["parts"][index] = (4096 * self.position, length)
            self.position += 1
        row(f"fall {upload} {count} {length}", f"at {self.position}")

    def end(self, upload, stage):
        self.uploads[upload].update(stage=stage, parts={})

    def committed(self, call, upload, numbers):
        def refusal():
            if self.not_open(upload):
                return self.not_open(upload)
            found = self.uploads[upload]
            parts = [found["parts"].get(index) for index in range(len(numbers))]
            if any(part is None or part[0] != number for part, number in zip(parts, numbers)):
                return "UploadPart"
            if sum(part[1] for part in parts) > 1073741824:
                return "UploadTooLarge"
            return self.no_object(found["path"])

        def made(number, moment):
            found = self.uploads[upload]
            length = sum(found["parts"][index][1] for index in range(len(numbers)))
            self.rows[found["path"]] = [number, length, moment, found["type"]]
            self.end(upload, "Committed")

        self.change(call, refusal(), made)

    def commit(self, upload, *numbers):
        self.committed(f"commit {upload}" + "".join(f" {n}" for n in numbers), upload, numbers)

    def rising(self, upload):
        parts = self.uploads.get(upload, {"parts": {}})["parts"]
        return [(index, *parts[index]) for index in sorted(parts)]

    def commit_front(self, upload, count):
        self.committed(f"commit-front {upload} {count}", upload, [number for _, number, _ in self.rising(upload)[:count]])

    def abort(self, upload):
        self.change(f"abort {upload}", self.not_open(upload), lambda number, moment: self.end(upload, "Aborted"))

    def look(self, upload):
        found = self.uploads.get(upload)
        if found is None:
            row(f"look {upload}", "none")
        else:
            row(f"look {upload}", f'{upload} {found["path"]} "{found["type"]}" {found["moment"]} {found["stage"]} {len(found["parts"])}')

    def parts(self, upload, start=0):
        parts = self.rising(upload)[start:]
        row(f"parts {upload} {start}", "".join(f"{index}: {number} {length}; " for index, number, length in parts[:4]) + str(len(parts)))

    def joined(self, upload, count):
        row(f"joined {upload} {count}", min(2**64 - 1, sum(length for _, _, length in self.rising(upload)[:count])))

    def at(self, name):
        found = self.rows.get(name)
        if isinstance(found, list):
            row(f"at {name}", f'{found[0]} {found[1]} {found[2]} "{found[3]}"')
        else:
            row(f"at {name}", "none" if found is None else f"directory {found}")

    def all(self):
        row("uploads", f"{len(self.uploads)}:" + "".join(f" {number}" for number in self.uploads))


def accounts():
    print("# An upload of two parts, of hel and lo, refused out of order, and committed once.")
    a = Account()
    a.all()
    a.begin("/l/stor/a")
    a.look(0)
    a.parts(0)
    a.part(0, 0, 3)
    a.part(0, 1, 2)
    a.parts(0)
    a.joined(0, 0)
    a.joined(0, 1)
    a.joined(0, 2)
    a.joined(0, 3)
    a.commit(0, 8192, 4096)
    a.commit(0, 4096, 8192, 12288)
    a.commit(0, 4096, 8193)
    a.commit(0, 2**64 - 1)
    a.at("/l/stor/a")
    a.look(0)
    a.commit(0, 4096, 8192)
    a.at("/l/stor/a")
    a.look(0)
    a.parts(0)
    a.joined(0, 2)
    a.commit(0, 4096, 8192)
    a.commit(0)
    a.part(0, 0, 1)
    a.abort(0)
    a.all()
    print("# What is not there.")
    for upload in (1, 4096, 4095, 2**62, 2**64 - 1):
        a.look(upload)
        a.part(upload, 0, 1)
        a.commit(upload)
        a.abort(upload)
        a.joined(upload, 1)
    print("# Where none may begin. The rest is looked at when it is committed.")
    b = Account()
    for name in ("/l/stor", "/l/public", "/l/jobs", "/l/jobs/a", "/l/jobs/a/b", "/l/stor/none/b", "/l/public/a"):
        b.begin(name, "a b")
    b.all()
    b.look(4096 * 1)
    print("# A commit of none makes an empty object.")
    b.commit(4096)
    b.at("/l/public/a")
    print("# Where no object may be put, a commit is refused as a put is, and its upload stays open.")
    b.part(0, 0, 7)
    b.commit(0, 12288)
    b.put("/l/stor/none", 1)
    b.commit(0, 12288)
    b.look(0)
    b.remove("/l/stor/none")
    b.directory("/l/stor/none")
    b.directory("/l/stor/none/b")
    b.commit(0, 12288)
    b.put("/l/stor/none/b", 1)
    b.look(0)
    b.parts(0)
    b.remove("/l/stor/none/b")
    b.commit(0, 12288)
    b.at("/l/stor/none/b")
    print("# The parts are judged before the path.")
    b.begin("/l/stor/none")
    upload = 4096 * (b.position - 1)
    b.commit(upload, 1)
    b.commit(upload)
    b.abort(upload)
    b.look(upload)
    b.commit(upload)
    b.abort(upload)
    b.part(upload, 0, 1)
    print("# An object that stands there is replaced.")
    b.begin("/l/public/a", "")
    b.put("/l/public/a", 99)
    b.at("/l/public/a")
    b.commit(4096 * (b.position - 2))
    b.at("/l/public/a")
    b.all()
    print("# A part twice: the second counts. Parts that leave a place out are no front.")
    c = Account()
    c.begin("/l/stor/a")
    c.begin("/l/stor/b")
    c.part(0, 1, 5)
    c.part(0, 1, 6)
    c.parts(0)
    c.part(4096, 0, 1)
    c.part(4096, 2, 2)
    c.commit(4096, 16384, 20480)
    c.commit(4096, 20480)
    c.part(0, 0, 1)
    c.commit(0, 4096 * 6, 8192)
    c.commit(0, 4096 * 6, 8192 + 4096)
    c.at("/l/stor/a")
    c.parts(4096)
    c.commit(4096, 16384)
    c.at("/l/stor/b")
    print("# A part that is put in every place, between others, before and behind them.")
    d = Account()
    d.begin("/l/stor/a")
    for index in (5000, 0, 9999, 1, 4999, 5001, 9998, 2500, 7500, 0, 5000, 9999):
        d.part(0, index, index)
        d.parts(0)
    for start in (3, 6, 8):
        d.parts(0, start)
    print("# The bytes of all parts: 1,073,741,824 at most, however many there are.")
    e = Account()
    e.begin("/l/stor/a")
    e.part(0, 0, 1073741824)
    e.part(0, 1, 1)
    e.part(0, 2, 0)
    e.joined(0, 2)
    e.commit(0, 4096, 8192, 12288)
    e.commit(0, 8192)
    e.directory("/l/stor/a")
    e.commit(0, 4096, 8192)
    e.commit(0, 4096)
    e.remove("/l/stor/a")
    e.part(0, 0, 2**64 - 1)
    e.joined(0, 1)
    e.joined(0, 2)
    e.part(0, 1, 2**64 - 1)
    e.joined(0, 3)
    e.commit(0, 4096 * (e.position - 2), 4096 * (e.position - 1))
    e.part(0, 0, 1073741823)
    e.part(0, 1, 1)
    e.commit(0, 4096 * (e.position - 2), 4096 * (e.position - 1))
    e.at("/l/stor/a")
    print("# 10,000 parts in falling order, listed and committed.")
    f = Account()
    f.begin("/l/stor/a")
    f.fall(0, 10000, 100)
    f.parts(0)
    f.parts(0, 9996)
    f.joined(0, 10000)
    f.commit_front(0, 10000)
    f.at("/l/stor/a")
    f.look(0)


def pattern(number, n):
    return bytes(((i % 251 + number) % 251) ^ (i // 256 % 256) for i in range(n))


def md5(data):
    return hashlib.md5(data).hexdigest()


def summary(data):
    return f"{len(data)} bytes {md5(data)}"


def size(n):
    """How much a body of so many bytes adds to a log."""
    return n + 22 * ((n + PIECE - 1) // PIECE)


def record(data):
    payload = b"\0" + data
    return b"\1" + struct.pack(">I", len(payload)) + hashlib.md5(payload).digest() + payload


def cut(data):
    return [data[at:at + PIECE] for at in range(0, len(data), PIECE)]


class Log:
    """The one file of a log, and where its closed gate stands."""

    def open(self, limit):
        self.limit, self.gate, self.closed = limit, 8, False
        self.file = b"MTLOG002\0"
        self.failing, self.made = set(), 0
        return "Ok(9)"

    def call(self):
        """Whether the next call of the disk succeeds."""
        self.made += 1
        self.closed |= self.made - 1 in self.failing
        return not self.closed

    def write(self, at, piece):
        if self.call():
            self.file = self.file[:at].ljust(at, b"\0") + piece + self.file[at + len(piece):]
        return not self.closed

    def add(self, next_, piece):
        """Two writes: behind the gate the record's head, then its payload and the next gate, which is one write."""
        data = record(piece)
        head = 1 if next_ == self.gate else 0
        return self.write(next_ + head, data[head:21]) and self.write(next_ + 21, data[21:])

    def end(self, next_):
        if self.closed:
            return "Err(Closed)"
        if next_ == self.gate:
            return "Ok(())"
        if self.write(next_, b"\0") and self.call() and self.write(self.gate, b"\1") and self.call():
            self.gate = next_
            return "Ok(())"
        return "Err(Disk)"

    def stored(self, *lens):
        self.bodies = [pattern(k, n) for k, n in enumerate(lens)]
        for data in self.bodies:
            next_ = self.gate
            for piece in cut(data):
                self.add(next_, piece)
                next_ += size(len(piece))
            self.end(next_)
        return f"log {self.gate + 1}"

    def reads(self, start, end):
        """How many reads give these bytes of all parts: one for each piece of a part that has some of them."""
        at = count = 0
        for data in self.bodies:
            for piece in cut(data):
                count += at < end and start < at + len(piece)
                at += len(piece)
        return count

    def join(self):
        whole = b"".join(self.bodies)
        first = next_ = self.gate
        answer, at = None, 0
        for piece in cut(whole):
            if not all(self.call() for _ in range(self.reads(at, at + len(piece)))):
                answer = "Disk"
            elif next_ + size(len(piece)) + 1 > self.limit:
                answer = "Full"
            elif not self.add(next_, piece):
                answer = "Disk"
            if answer:
                break
            next_ += size(len(piece))
            at += len(piece)
        if answer is None:
            answer = f"Joined {first if whole else 0} {len(whole)} {md5(whole)}"
            self.joined = whole
        return f"{answer}; {self.end(next_)}, log {self.gate + 1}; calls {self.made}"

    def whole(self):
        return f"Ok(()) {summary(self.joined)}"

    def one(self):
        return summary(self.file)

    def size(self, n):
        return min(2 ** 64 - 1, size(n))

    def fail(self, *calls):
        self.failing, self.made = set(calls), 0


def joining(limit, lens, failing=""):
    yield f"open {limit}"
    yield " ".join(["stored", *map(str, lens)])
    yield f"fail{failing}"
    yield "join"


def join_rows():
    yield "# How much a body adds to a log."
    for n in (0, 1, 65_535, 65_536, 65_537, 131_072, 1_073_741_824, 18_440_553_702_288_495_286, 18_440_553_702_288_495_287, 18_440_553_702_288_495_288, 2 ** 64 - 1):
        yield f"size {n}"
    yield "# No part, one, and those of two and of three in every order."
    for count in range(4):
        for lens in itertools.product(SIZES, repeat=count):
            yield from joining(1_200_000, lens)
            yield "whole"
    yield "# Many small parts in one piece, empty ones among them; and one of several pieces between two others."
    for lens in ([3] * 40, [0, 0, 7, 0, 5, 0, 0], [30_000] * 5, [100, 200_000, 100], [65_536, 0, 0]):
        yield from joining(1_200_000, lens)
        yield "whole"
        yield "one"
    yield "# Room for no piece, for all but the last piece, for all: one byte more or less than each piece asks for."
    for lens in ([65_535, 65_536, 65_537], [65_536, 65_537, 1], [1, 1]):
        used = 9 + sum(size(n) for n in lens)
        ends = itertools.accumulate([size(len(piece)) for piece in cut(bytes(sum(lens)))], initial=0)
        for limit in sorted({used + end + more for end in ends for more in (-1, 0, 1) if used + end + more >= used}):
            yield from joining(limit, lens)
            yield "one"
    yield "# Each call of the disk fails while three parts are joined and the run is ended."
    for lens in ([65_535, 65_536, 65_537], [1, 65_537, 0]):
        for fail in range(17):
            yield from joining(1_200_000, lens, f" {fail}")


def joins():
    log = Log()
    for line in join_rows():
        call, *numbers = line.split()
        answer = None if call == "#" else getattr(log, call)(*[int(n) for n in numbers])
        if answer is None:
            print(line)
        else:
            row(line, answer)


uploads()
lists()
states()
accounts()
joins()
