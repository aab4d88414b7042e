#!/usr/bin/env python3
"""Prints the wanted table of draft_rows: `python3 wanted.py | diff - stdout`.

It follows docs/proof/FORMATS.md and the READMEs of mt_disk, mt_log and mt_draft, and knows nothing of their code: a log is read and
written by struct and hashlib, and a disk is a list of calls, of which a crash leaves what its picks say.
"""
import hashlib
import struct

ROOM = (300000, 64, 300000)
PICKS = ["nothing", "zeros", "ones", "half", "whole"]
MAGIC = {False: b"MTLOG002", True: b"MTLOG001"}
OTHER = {"one": "two", "two": "one"}

# No session makes so many calls.
NEVER = 99


class Fault(Exception):
    pass


class NotAnImage(Exception):
    pass


def put(data, at, piece):
    data = data.ljust(at, b"\0")
    return data[:at] + piece + data[at + len(piece):]


class Disk:
    """Three files, a list of the calls that changed something, and the numbers of those that fail."""

    def __init__(self, files, failing=(), room=ROOM):
        self.base = dict(zip(("head", "one", "two"), files))
        self.now = dict(self.base)
        self.past, self.calls, self.failing, self.room = [], 0, set(failing), room

    def begin(self):
        self.calls += 1
        return self.calls - 1 in self.failing

    def note(self, entry):
        if len(self.past) == self.room[1]:
            raise Fault
        self.past.append(entry)

    def len(self, name):
        if self.begin():
            raise Fault
        return len(self.now[name])

    def read(self, name, at, count):
        if self.begin():
            raise Fault
        return self.now[name][at:at + count]

    def write(self, name, at, piece):
        fails = self.begin()
        written = sum(len(e[3]) for e in self.past if e[0] == "write")
        if at + len(piece) > self.room[0] or written + len(piece) > self.room[2]:
            raise Fault
        self.note(("write", name, at, piece, not fails))
        if fails:
            raise Fault
        self.now[name] = put(self.now[name], at, piece)

    def cut(self, name, to):
        fails = self.begin()
        self.note(("cut", name, to, b"", not fails))
        if fails:
            raise Fault
        self.now[name] = self.now[name][:to]

    def sync(self, name):
        if self.begin():
            raise Fault
        self.note(("sync", name, 0, b"", True))

    def crash(self, picks):
        """The disk after a crash: the first pick is of the newest call, and a call without one is done."""
        left, seen = dict(self.base), dict(self.base)
        for place, (kind, name, at, piece, done) in enumerate(self.past):
            back = len(self.past) - 1 - place
            pick = picks[back] if back < len(picks) else None
            if kind == "sync":
                if pick and left[name] != seen[name]:
                    raise NotAnImage
            elif kind == "cut":
                if pick not in (None, "nothing") or (pick is None and done):
                    left[name] = left[name][:at]
                if done:
                    seen[name] = seen[name][:at]
            else:
                torn = {"zeros": b"\0" * len(piece), "ones": b"\1" * len(piece), "half": piece[:len(piece) // 2],
                        "whole": piece, None: piece if done else None, "nothing": None}[pick]
                if torn is not None:
                    left[name] = put(left[name], at, torn)
                if done:
                    seen[name] = put(seen[name], at, piece)
        after = Disk([left["head"], left["one"], left["two"]], self.failing, self.room)
        after.calls = self.calls
        return after


def record(payload):
    return b"\1" + struct.pack(">I", len(payload)) + hashlib.md5(payload).digest() + payload


def log_of(payloads):
    return b"MTLOG002" + b"".join(record(p) for p in payloads) + b"\0"


class Refused(Exception):
    pass


def records(data):
    at, found = 8, []
    while True:
        left = len(data) - at
        if left == 0:
            raise Refused(f"Short {{ at: {at}, wanted: 1, left: 0 }}")
        if data[at] != 1:
            return found, at
        if left < 21:
            raise Refused(f"Short {{ at: {at}, wanted: 21, left: {left} }}")
        size, = struct.unpack(">I", data[at + 1:at + 5])
        if left < 21 + size:
            raise Refused(f"Short {{ at: {at}, wanted: {21 + size}, left: {left} }}")
        payload, kept = data[at + 21:at + 21 + size], data[at + 5:at + 21]
        if hashlib.md5(payload).digest() != kept:
            raise Refused(f"Damaged {{ at: {at}, kept: {kept.hex()}, computed: {hashlib.md5(payload).hexdigest()} }}")
        found.append((at, payload))
        at += 21 + size


def shown(data):
    """Bytes as an answer shows them."""
    named = {9: "\\t", 10: "\\n", 13: "\\r", 92: "\\x5c"}
    return "".join(named.get(b) or (chr(b) if 32 <= b <= 126 else f"\\x{b:02x}") for b in data)


def whole(data):
    return shown(data) or "\\e"


def word(data):
    return whole(data).replace(" ", "\\s")


def row(line, answer=None):
    print(line if answer is None else f"{line:<48} => {answer}")


class Session:
    """A log on a disk, and the draft of a new one in the other file."""

    def __init__(self, disk):
        self.disk, self.file, self.draft, self.is_over = disk, None, None, False

    def open(self):
        self.is_over = False
        try:
            return self.opened()
        except Refused as why:
            self.is_over = True
            return str(why)
        except Fault:
            self.is_over = True
            return "Disk"

    def opened(self):
        disk = self.disk
        for name in ("head", "one", "two"):
            disk.sync(name)
        assert disk.len("head") > 0
        self.file = "one"
        if disk.read("head", 0, 1) == b"\2":
            if disk.len("two") >= 9:
                self.file = "two"
            else:
                self.name(b"\1")
        size = disk.len(self.file)
        if size < 9:
            raise Refused("NotALog")
        data = disk.read(self.file, 0, size)
        if data[:8] not in MAGIC.values():
            raise Refused("NotALog")
        end = records(data)[1] + 1
        return f"{self.file.capitalize()} {'old' if data[:8] == MAGIC[True] else 'new'} {end}"

    def name(self, byte):
        self.disk.write("head", 0, byte)
        self.disk.sync("head")

    def payloads(self):
        """To read a payload takes a call of the disk for its length and, where it has bytes, one for them."""
        found = [p for _, p in records(self.disk.now[self.file])[0]]
        self.disk.calls += sum(1 + bool(p) for p in found)
        return ":" + "".join(" " + whole(p) for p in found)

    def told(self, call):
        """What a call answers. One at which the disk fails ends the session."""
        try:
            return call()
        except Fault:
            self.is_over = True
            return None

    def emptied(self):
        """The file that the log isn't in is emptied, as far as the disk lets it."""
        other, self.draft = OTHER[self.file], None
        self.disk.cut(other, 0)
        self.disk.sync(other)
        return "Ok"

    def abandon(self):
        return self.told(self.emptied) or "Err(DiskFault)"

    def begin(self, limit):
        return self.told(lambda: self.begun(limit)) or "Err(Disk)"

    def begun(self, limit):
        if limit < 9:
            return "Err(Full)"
        disk = self.disk
        if self.file == "one" and disk.read("head", 0, 1) == b"\2":
            self.name(b"\1")
        disk.cut(OTHER[self.file], 0)
        self.draft, self.held, self.written, self.limit = OTHER[self.file], MAGIC[False], 0, limit
        return "Ok(8)"

    def add(self, payload):
        return self.more(21 + len(payload), lambda: self.hold(record(payload)))

    def copy(self, start, size):
        def parts():
            for at in range(0, size, 65536):
                self.hold(self.disk.read(self.file, start + at, min(65536, size - at)))
        return self.more(size, parts)

    def more(self, size, add):
        place = self.written + len(self.held)
        if place + size + 1 > self.limit:
            return "Err(Full)"
        self.told(add)
        return f"Ok({place})" if not self.is_over else f"Err(Disk), abandoned {self.abandon()}"

    def hold(self, data):
        self.held += data
        if len(self.held) >= 65536:
            self.pour()

    def pour(self):
        self.disk.write(self.draft, self.written, self.held)
        self.written, self.held = self.written + len(self.held), b""

    def finish(self):
        return self.told(self.finished) or "Err(DiskFault)"

    def finished(self):
        disk, draft, file = self.disk, self.draft, self.file
        size = self.written + len(self.held) + 1
        try:
            self.pour()
            disk.write(draft, self.written, b"\0")
            disk.sync(draft)
        except Fault:
            self.abandon()
            raise
        self.draft = self.file = None
        self.name(b"\1" if draft == "one" else b"\2")
        disk.cut(file, 0)
        disk.sync(file)
        return f"Ok({size})"

    def step(self, words):
        return getattr(self, words[0])(*words[1:])


def line_of(words):
    return " ".join(w if isinstance(w, str) else word(w) if isinstance(w, bytes) else str(w) for w in words)


def stop(files, steps, call, picks):
    """The answer to a session that is stopped."""
    disk = Disk(files, [call])
    session = Session(disk)
    answers = [session.open()]
    for step in steps:
        if not session.is_over:
            answers.append(session.step(step))
    answer = ", ".join(answers)
    try:
        left = Session(disk.crash(picks))
    except NotAnImage:
        return answer + "; no image"
    again = left.open()
    payloads = left.payloads() if not left.is_over else ""
    return f"{answer}; left {again}{payloads}, head {whole(left.disk.now['head'])}"


def calls_of(files, steps):
    """How many calls of the disk a session makes of which none fails."""
    session = Session(Disk(files))
    session.open()
    for step in steps:
        session.step(step)
    assert not session.is_over
    return session.disk.calls


def stops(files, steps, counts):
    """Each call of a session fails in turn, and then none does."""
    row("disk " + " ".join(word(f) for f in files))
    row("steps")
    for step in steps:
        row("step " + line_of(step))
    for call in [*range(calls_of(files, steps)), NEVER]:
        for pick in PICKS:
            for count in counts:
                if count or pick == PICKS[0]:
                    picks = [pick] * count
                    row(" ".join(["stop", str(call)] + picks), stop(files, steps, call, picks))


class Table:
    """A session over a disk, of whose calls each becomes a row."""

    def disk(self, head, one, two, *failing):
        self.it = Session(Disk([head, one, two], failing))
        row(" ".join(["disk", word(head), word(one), word(two)] + [str(n) for n in failing]))

    def do(self, *words):
        row(line_of(words), self.it.step(words))

    def add_many(self, count, letter):
        row(f"add \\*{count}.{letter}", self.it.add(letter.encode() * count))

    def shows(self):
        row("files", ", ".join(f"{name} {whole(self.it.disk.now[name])}" for name in ("head", "one", "two")))
        row("calls", self.it.disk.calls)

    def payloads(self):
        row("payloads", self.it.payloads())


def log_of(payloads, old=False):
    return MAGIC[old] + b"".join(record(p) for p in payloads) + b"\0"


def say(*lines):
    print()
    for line in lines:
        print("# " + line)


def drafts(t):
    log = log_of([b"one", b"two", b"three"])
    print("# The wanted answers are written by `python3 wanted.py`, which follows docs/proof/FORMATS.md by struct and hashlib. `disk` makes")
    print("# a disk in memory of Head, One and Two; behind them are the numbers of its calls that fail. `\\e` is no byte.")
    say("The log of three payloads in One, with the second left out and one more, is in Two then.")
    t.disk(b"\1", log, b"")
    t.do("open")
    t.do("begin", 200)
    t.do("add", b"four")
    t.do("copy", 8, 24)
    t.do("copy", 56, 26)
    t.do("finish")
    assert t.it.disk.now["two"] == log_of([b"four", b"one", b"three"])
    t.shows()
    t.do("open")
    t.payloads()
    say("And back, from a file with bytes behind the closed gate; the copy of two records at once, and of none.")
    t.disk(b"\2more", b"old", log + b"behind")
    t.do("open")
    t.do("begin", 200)
    t.do("copy", 32, 50)
    t.do("copy", 0, 0)
    t.do("finish")
    t.shows()
    t.do("open")
    t.payloads()
    say("A log of the old version; the draft is of this one.")
    t.disk(b"\1", log_of([b"one", b"two"], True), b"abc")
    t.do("open")
    t.do("begin", 200)
    t.do("copy", 8, 48)
    t.do("finish")
    t.shows()
    t.do("open")
    t.payloads()
    say("A draft without a payload.")
    t.disk(b"\1", log, b"")
    t.do("open")
    t.do("begin", 9)
    t.do("finish")
    t.shows()
    t.do("open")
    t.payloads()


def mended(t):
    say("Head names Two, where no log is: the log is in One. Head is mended when the log is opened.")
    t.disk(b"\2", log_of([b"one"]), b"MTLOG")
    t.do("open")
    t.do("begin", 100)
    t.shows()
    say("A draft that is dropped leaves the log; what was written of it is emptied by the next.")
    t.disk(b"\1", log_of([b"one"]), b"left of another")
    t.do("open")
    t.do("begin", 100)
    t.do("add", b"two")
    t.do("open")
    t.payloads()
    t.shows()


def limits(t):
    log = log_of([b"one", b"two"])
    say("A limit is met exactly.")
    t.disk(b"\1", log, b"")
    t.do("open")
    t.do("begin", 8)
    for limit in (9, 32, 33):
        t.do("begin", limit)
        t.do("add", b"new")
    for limit in (56, 57):
        t.do("begin", limit)
        t.do("copy", 8, 48)
    t.do("add", b"")
    t.do("finish")
    t.do("open")
    t.payloads()


def pieces(t):
    say("What is held is written where it is 65,536 bytes or more: a record of 40,000 bytes makes no call, a second one makes one. The copy",
        "of both, 80,042 bytes, reads two pieces and writes one.")
    t.disk(b"\1", log_of([]), b"")
    t.do("open")
    t.do("begin", 100000)
    for letter in "ab":
        t.add_many(40000, letter)
        row("calls", t.it.disk.calls)
    t.do("finish")
    row("calls", t.it.disk.calls)
    t.do("open")
    row("calls", t.it.disk.calls)
    t.do("begin", 80050)
    t.do("copy", 8, 80042)
    t.do("begin", 80051)
    t.do("copy", 8, 80042)
    row("calls", t.it.disk.calls)
    t.do("finish")
    row("calls", t.it.disk.calls)
    t.do("open")


def faults(t):
    say("A fault of the disk ends the draft, and the log is as it was: one of the write of what is held, in an addition and in a copy, and one",
        "of the read of each piece.")
    t.disk(b"\1", log_of([]), b"", 9, 38, 51, 65)
    t.do("open")
    t.do("begin", 100000)
    t.add_many(40000, "a")
    t.add_many(26000, "b")
    t.do("open")
    t.do("begin", 100000)
    t.add_many(40000, "a")
    t.add_many(26000, "b")
    t.do("finish")
    for _ in range(3):
        t.do("open")
        t.do("begin", 100000)
        t.do("copy", 8, 66042)
        row("calls", t.it.disk.calls)
    t.do("open")


def abandoned(t):
    say("A draft that is given up is emptied, by two calls of the disk; the log is as it was.")
    t.disk(b"\1", log_of([b"one"]), b"left of another")
    t.do("open")
    t.do("begin", 100000)
    for letter in "ab":
        t.add_many(40000, letter)
    row("calls", t.it.disk.calls)
    t.do("abandon")
    t.shows()
    t.do("open")
    t.payloads()
    say("So is one that met the limit.")
    t.do("begin", 9)
    t.do("add", b"two")
    t.do("abandon")
    t.shows()
    say("A fault of the write or of the sync that empties it is told. A draft whose end could not be written is emptied too: a fault of the write",
        "of what is held, of the write of the gate, of the sync, and, in the last, of the cut that then empties it.")
    t.disk(b"\1", log_of([]), b"", 9, 20)
    t.do("open")
    for _ in range(2):
        t.do("begin", 100)
        t.do("add", b"one")
        t.do("abandon")
        t.shows()
        t.do("open")
    for failing in ((9,), (10,), (11,), (11, 12)):
        t.disk(b"\1", log_of([]), b"", *failing)
        t.do("open")
        t.do("begin", 100)
        t.do("add", b"one")
        t.do("finish")
        t.shows()


def sessions():
    say("Sessions that are stopped: the number of the call of the disk that fails (99 for none), and what a crash leaves of the last calls,",
        "the newest first. The answer: how the log was opened and what each step was answered; then how what was left was opened, its",
        "payloads, and Head.")
    log = log_of([b"one", b"two"])
    steps = [("begin", 200), ("add", b"three"), ("copy", 8, 24), ("finish",)]
    counts = (0, 1, 2, 8)
    stops([b"\1", log, b"left of another"], steps, counts)
    say("The log is in Two.")
    stops([b"\2", b"left of another", log], steps, counts)
    say("Head names a log in Two that isn't there.")
    stops([b"\2", log, b"MTLOG"], steps, (1, 8))
    say("A log of the old version.")
    stops([b"\1", log_of([b"one", b"two"], True), b""], steps, (1, 8))


def main():
    t = Table()
    drafts(t)
    mended(t)
    limits(t)
    pieces(t)
    faults(t)
    abandoned(t)
    sessions()


main()
