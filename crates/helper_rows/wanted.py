#!/usr/bin/env python3
"""Prints the table of helper_rows: what each helper does, and what a drill asks for, by struct and hashlib.

usage: wanted.py > stdout
"""
import hashlib
import re
import struct

NAME = re.compile(rb"[A-Za-z0-9_-]{1,64}")


def word(data):
    """Bytes as a word of a row."""
    if not data:
        return "\\e"
    out = "".join({10: "\\n", 13: "\\r", 9: "\\t", 32: "\\s", 92: "\\\\"}.get(b, chr(b) if 32 < b < 127 else "\\x%02x" % b) for b in data)
    return out


def shown(data):
    """Bytes as an answer shows them."""
    if len(data) > 200:
        return f" ({len(data)} bytes)"
    out = "".join({10: "\\n", 13: "\\r", 9: "\\t", 92: "\\\\"}.get(b, chr(b) if 32 <= b < 127 else "\\x%02x" % b) for b in data)
    if out.endswith(" "):
        out = out[:-1] + "\\s"
    return f" [{out}]"


def path(login, text):
    """The text of the path that a text names, or none."""
    if not text.startswith((b"/", b"~~/")):
        return None
    pieces = [it for it in text.split(b"/") if it]
    if pieces and pieces[0] == b"~~":
        pieces[0] = login
    if len(pieces) < 2 or pieces[0] != login or pieces[1] not in (b"stor", b"public", b"jobs"):
        return None
    if sum(len(it) + 1 for it in pieces[1:]) > 1024:
        return None
    for it in pieces[2:]:
        if len(it) > 255 or it in (b".", b"..") or any(b < 32 or b == 127 for b in it):
            return None
    return b"/" + b"/".join(pieces)


def decimal(text, least, most):
    if not re.fullmatch(rb"[0-9]{1,19}", text) or not least <= int(text) <= most:
        return None
    return int(text)


def tool_of(words):
    """The tool that words ask for, or the status of a refusal."""
    if len(words) < 2 or not NAME.fullmatch(words[0]):
        return 1
    login, name, rest = words[0], words[1], words[2:]
    if name == b"mpipe":
        reducer = None
        if rest[:1] == [b"-r"]:
            reducer = decimal(rest[1], 0, 2**32 - 1) if len(rest) > 1 else None
            if reducer is None:
                return 1
            rest = rest[2:]
        if len(rest) > 1 or rest == [b"-r"]:
            return 1
        place = path(login, rest[0]) if rest else None
        return 2 if rest and place is None else ("pipe", place, reducer)
    if name == b"mtee":
        if len(rest) != 1:
            return 1
        place = path(login, rest[0])
        return 2 if place is None else ("tee", place)
    if name == b"mcat":
        if not rest:
            return 1
        places = [path(login, it) for it in rest]
        return 2 if None in places else ("cat", places)
    if name == b"msplit":
        options = {}
        while rest:
            if rest[0] not in (b"-n", b"-d", b"-f") or rest[0] in options or len(rest) < 2:
                return 1
            value = rest[1]
            if rest[0] == b"-n":
                value = decimal(value, 1, 1024)
            elif rest[0] == b"-d":
                value = value if len(value) == 1 else None
            else:
                value = [decimal(it, 1, 1000) for it in value.split(b",")]
                value = None if None in value or len(value) > 64 else value
            if value is None:
                return 1
            options[rest[0]] = value
            rest = rest[2:]
        if b"-n" not in options or (b"-d" in options and b"-f" not in options):
            return 1
        return ("split", options[b"-n"], options.get(b"-d", b"\t"), options.get(b"-f"))
    return 1


def key_of(line, delimiter, fields):
    line = line[:-1] if line.endswith(b"\n") else line
    if fields is None:
        return line
    parts = line.split(delimiter)
    return delimiter.join(parts[n - 1] if n <= len(parts) else b"" for n in fields)


def text_field(data):
    return struct.pack(">H", len(data)) + data


def emit(place, reducer):
    return b"\1" + (b"\0" if place is None else b"\1" + text_field(place)) + (b"\0" if reducer is None else b"\1" + struct.pack(">I", reducer))


def end(body):
    return b"MREC" + struct.pack(">Q", len(body))


class Failed(Exception):
    pass


class Ends:
    """A source, a sink and a spool, of which one call fails."""

    def __init__(self, data, failing=None, call=None, taken=0, room=1 << 26):
        self.data, self.failing, self.call, self.room = data, failing, call, room
        self.calls = {"source": 0, "sink": 0, "spool": 0}
        # a tool looks for the number of each record behind that of the last
        self.got, self.files, self.taken, self.next = b"", [], taken, 0

    def count(self, which):
        self.calls[which] += 1
        if self.failing == which and self.calls[which] - 1 == self.call:
            raise Failed({"source": 3, "sink": 4, "spool": 5}[which])

    def read(self, size):
        self.count("source")
        piece, self.data = self.data[:size], self.data[size:]
        return piece

    def write(self, piece):
        self.count("sink")
        self.got += piece

    def create(self):
        for number in range(self.next, 4095):
            self.count("spool")
            if number >= self.taken:
                self.files.append((number, b""))
                self.next = number + 1
                return
        raise Failed(6)

    def append(self, piece):
        if not piece:
            return
        self.count("spool")
        fits = piece[:self.room]
        self.room -= len(fits)
        number, old = self.files[-1]
        self.files[-1] = (number, old + fits)
        if fits != piece:
            raise Failed(5)


def stream(ends, head, copies):
    ends.create()
    ends.append(head)
    size = 0
    while piece := ends.read(65536):
        size += len(piece)
        if size > 16777216:
            raise Failed(7)
        if copies:
            ends.write(piece)
        ends.append(piece)
    ends.append(b"MREC" + struct.pack(">Q", size))


def run(ends, words):
    tool = tool_of(words)
    if isinstance(tool, int):
        return tool
    try:
        if tool[0] == "pipe":
            stream(ends, emit(tool[1], tool[2]), False)
        elif tool[0] == "tee":
            stream(ends, b"\2" + text_field(tool[1]), True)
        elif tool[0] == "cat":
            for place in tool[1]:
                ends.create()
                ends.append(b"\3" + text_field(place) + end(b""))
        else:
            data = b""
            while piece := ends.read(4096):
                data += piece
                if len(data) > 16777216:
                    raise Failed(7)
            _, count, delimiter, fields = tool
            parts = [b""] * count
            for line in re.findall(rb"[^\n]*\n|[^\n]+", data):
                digest = hashlib.md5(key_of(line, delimiter, fields)).digest()
                parts[struct.unpack(">I", digest[:4])[0] % count] += line
            for reducer, part in enumerate(parts):
                ends.create()
                ends.append(emit(None, reducer) + part + end(part))
    except Failed as e:
        return e.args[0]
    return 0


def row(call, ends, words):
    left = ends
    status = run(left, words)
    answer = f"{status} left {len(left.data)}{shown(left.got)}" + "".join(f"; {n}{shown(data)}" for n, data in left.files)
    print(f"{call} {' '.join(word(it) for it in words)}".ljust(48) + f" => {answer}")


def many(size):
    """So many times `x`, as a word."""
    return "\\*65536.x" * (size // 65536) + (f"\\*{size % 65536}.x" if size % 65536 else "")


def plain(data, *words, spelled=None):
    row(f"run {spelled or word(data)}", Ends(data), [it.encode() for it in words])


def main():
    print("# One record of what is read (mpipe), and a copy of it (mtee).")
    plain(b"hi", "l", "mpipe", "-r", "2", "~~/public/x")
    plain(b"hi", "l", "mtee", "~~/stor/t")
    for words in (("l", "mpipe"), ("l", "mpipe", "/l/stor/a"), ("l", "mpipe", "-r", "0"), ("l", "mpipe", "-r", "4294967295", "/l/stor//a/"), ("l", "mtee", "/l/jobs/j/stor/x")):
        plain(b"a\nb", *words)
        plain(b"", *words)
    print("\n# What is longer than one piece.")
    plain(b"x" * 65537, "l", "mpipe", spelled=many(65537))
    plain(b"x" * 70000, "l", "mtee", "/l/stor/k", spelled=many(70000))
    print("\n# References (mcat); nothing is read.")
    plain(b"unread", "l", "mcat", "/l/stor/a")
    plain(b"unread", "l", "mcat", "/l/stor/b", "~~/stor/a", "/l/stor/b")
    print("\n# Lines by the digests of their keys (msplit), empty parts too.")
    plain(b"a\nb\nc\n", "l", "msplit", "-n", "8")
    plain(b"a\nb\nc", "l", "msplit", "-n", "1")
    plain(b"", "l", "msplit", "-n", "2")
    plain(b"k\t1\nm\t2\nk\t3\n", "l", "msplit", "-f", "1", "-n", "3")
    plain(b"k,1\nm,2\nk,3\n", "l", "msplit", "-d", ",", "-n", "3", "-f", "2,1")
    plain(b"k,1\nm,2", "l", "msplit", "-n", "2", "-f", "9,1,1", "-d", ",")
    print("\n# Words that are not of the grammar.")
    for words in ((), ("l",), ("l", "mget"), ("l", "mpipe", "-r"), ("l", "mpipe", "-r", "4294967296"), ("l", "mpipe", "-r", "x"), ("l", "mpipe", "-r", "1", "-r", "2"), ("l", "mpipe", "-r", "1", "-r"),
                  ("l", "mpipe", "/l/stor/a", "-r", "1"), ("l", "mpipe", "/l/stor/a", "/l/stor/b"), ("l", "mtee"), ("l", "mtee", "/l/stor/a", "/l/stor/b"), ("l", "mcat"), ("l", "msplit"), ("l", "msplit", "-n"),
                  ("l", "msplit", "-n", "0"), ("l", "msplit", "-n", "1025"), ("l", "msplit", "-n", "2", "-n", "2"), ("l", "msplit", "-n", "2", "-d", ","), ("l", "msplit", "-n", "2", "-d", ",,", "-f", "1"),
                  ("l", "msplit", "-n", "2", "-f", "0"), ("l", "msplit", "-n", "2", "-f", "1001"), ("l", "msplit", "-n", "2", "-f", "1,,2"), ("l", "msplit", "-n", "2", "-f", ""), ("l", "msplit", "-n", "2", "-f", ",".join(["1"] * 65)),
                  ("l", "msplit", "-f", "1"), ("l", "msplit", "-n", "2", "x"), ("l l", "mpipe"), ("", "mpipe"), ("l" * 65, "mpipe"), ("l", "mpipe", "-r", "")):
        plain(b"hi", *words)
    print("\n# The last that are: 64 letters, 64 fields.")
    plain(b"hi", "l" * 64, "mpipe", "~~/stor/a")
    plain(b"hi", "l", "msplit", "-n", "1", "-f", ",".join(["1"] * 64))
    print("\n# Places and names that are no path; no word is looked at twice.")
    for words in (("l", "mpipe", "x"), ("l", "mpipe", "-x"), ("l", "mtee", "-r"), ("l", "mtee", "/m/stor/a"), ("l", "mtee", "/l/stor/.."), ("l", "mcat", "/l/stor/a", "/l/other/a"), ("l", "mtee", ""), ("l", "mpipe", "-r", "1", "/l")):
        plain(b"hi", *words)
    print("\n# Numbers that are taken.")
    for count, words in ((1, ("l", "mpipe")), (4094, ("l", "mtee", "/l/stor/a")), (4095, ("l", "mtee", "/l/stor/a")), (4094, ("l", "mcat", "/l/stor/a", "/l/stor/b")), (4093, ("l", "msplit", "-n", "3")), (4095, ("l", "mcat", "/l/stor/a"))):
        row(f"taken {count} hi", Ends(b"hi", taken=count), [it.encode() for it in words])
    print("\n# A spool that is full.")
    for room in (0, 1, 13, 14, 15, 26, 27):
        row(f"room {room} hi", Ends(b"hi", room=room), [b"l", b"mtee", b"/l/stor/a"])
    for room in (0, 23, 24, 47):
        row(f"room {room} hi", Ends(b"hi", room=room), [b"l", b"mcat", b"/l/stor/a", b"/l/stor/b"])
    print("\n# Calls that fail, counted from 0.")
    for which, last in (("source", 2), ("sink", 1), ("spool", 4)):
        for call in range(last + 1):
            row(f"fails {which} {call} hi", Ends(b"hi", which, call), [b"l", b"mtee", b"/l/stor/a"])
    for which, call, words in (("source", 0, "l msplit -n 2"), ("source", 1, "l msplit -n 2"), ("spool", 0, "l msplit -n 2"), ("spool", 1, "l msplit -n 2"), ("spool", 2, "l msplit -n 2"), ("spool", 3, "l msplit -n 2"),
                               ("source", 0, "l mcat /l/stor/a"), ("sink", 0, "l mpipe"), ("spool", 1, "l mcat /l/stor/a"), ("source", 0, "l mpipe x")):
        row(f"fails {which} {call} hi", Ends(b"hi", which, call), [it.encode() for it in words.split()])

    drills()


def head(request, data):
    return f"{request} HTTP/1.1\r\nContent-Length: {len(data)}\r\n\r\n{data}"


def drill(count):
    """What a drill of so many objects asks for."""
    names = [f"/l/stor/d{i % 16}/o{i}" for i in range(count)]
    job = "/l/jobs/00000002-0000-8000-%04x-%012x" % (0x8000 + ((16 + count) * 4096 >> 48), (16 + count) * 4096)
    text = "".join(f"PUT /l/stor/d{k} HTTP/1.1\r\nContent-Type: application/json; type=directory\r\nContent-Length: 0\r\n\r\n" for k in range(16))
    text += "".join(head(f"PUT {name}", "abc"[i % 3] + "\n") for i, name in enumerate(names))
    text += head("POST /l/jobs", '{"phases":[{"exec":"split"},{"type":"reduce","exec":"count","count":4}]}')
    text += head(f"POST {job}/live/in", "".join(f"{name}\n" for name in names))
    return (text + head(f"POST {job}/live/in/end", "")).encode()


def part(reducer, data):
    """A record file: an output for a reducer."""
    return b"\1\0\1" + struct.pack(">I", reducer) + data + b"MREC" + struct.pack(">Q", len(data))


def reducer_of(line):
    return struct.unpack(">I", hashlib.md5(line.rstrip(b"\n")).digest()[:4])[0] % 4


def drills():
    print("\n# A drill: all its messages, and the first reads of them.")
    for count in (0, 1, 10, 16, 17, 1000, 10000):
        text = drill(count)
        print(f"messages {count}".ljust(48) + f" => {len(text)} bytes, md5 {hashlib.md5(text).hexdigest()}, then End")
    for count, most, reads in ((1, 40, 8), (10, 1000, 3), (10, 1, 5)):
        # one read takes no more than the piece of the messages that is kept: a message, or an input
        pieces = [it + b"\r\n\r\n" for it in drill(count).split(b"\r\n\r\n")[:16]]
        taken = [it[k : k + most] for it in pieces for k in range(0, len(it), most)][:reads]
        print(f"reads {count} {most} {reads}".ljust(48) + " => " + "".join(shown(it).strip() for it in taken))
    print("\n# Its commands.")
    for data in (b"a\n", b"b\n", b"c\n", b"", b"a\nb\nc\na\n", b"a\nb"):
        lines = re.findall(rb"[^\n]*\n|[^\n]+", data)
        files = [part(r, b"".join(it for it in lines if reducer_of(it) == r)) for r in range(4)]
        print(f"work split {word(data)}".ljust(48) + f" => 0{shown(b'')}" + "".join(f"; {r}{shown(it)}" for r, it in enumerate(files)))
        print(f"work count {word(data)}".ljust(48) + f" => 0{shown(b'%d' % data.count(10) + bytes([10]))}")
    print("work cat a".ljust(48) + f" => 127{shown(b'')}")


main()
