#!/usr/bin/env python3
"""Prints the wanted table of disk_rows: `python3 wanted.py | diff - stdout`.

It follows docs/proof/FORMATS.md and the READMEs of mt_disk and mt_log, and knows nothing of their code: a log is read by struct and
hashlib, and a disk is a list of calls, of which a crash leaves what its picks say.
"""
import hashlib
import struct

ROOM = (256, 64, 512)
PICKS = ["nothing", "zeros", "ones", "half", "whole"]
WORDS = [b"one", b"two", b"three", b"four", b"five", b"six"]


class Fault(Exception):
    pass


class NotAnImage(Exception):
    pass


def put(data, at, piece):
    data = data.ljust(at, b"\0")
    return data[:at] + piece + data[at + len(piece):]


class Disk:
    """Three files, a list of the calls that changed something, and the numbers of those that fail."""

    def __init__(self, files, failing=(), room=ROOM):
        self.base = dict(zip(("head", "one", "two"), files))
        self.now = dict(self.base)
        self.past, self.calls, self.failing, self.room = [], 0, set(failing), room

    def begin(self):
        self.calls += 1
        return self.calls - 1 in self.failing

    def note(self, entry):
        if len(self.past) == self.room[1]:
            raise Fault
        self.past.append(entry)

    def len(self, name):
        if self.begin():
            raise Fault
        return len(self.now[name])

    def read(self, name, at, count):
        if self.begin():
            raise Fault
        return self.now[name][at:at + count]

    def write(self, name, at, piece):
        fails = self.begin()
        written = sum(len(e[3]) for e in self.past if e[0] == "write")
        if at + len(piece) > self.room[0] or written + len(piece) > self.room[2]:
            raise Fault
        self.note(("write", name, at, piece, not fails))
        if fails:
            raise Fault
        self.now[name] = put(self.now[name], at, piece)

    def cut(self, name, to):
        fails = self.begin()
        self.note(("cut", name, to, b"", not fails))
        if fails:
            raise Fault
        self.now[name] = self.now[name][:to]

    def sync(self, name):
        if self.begin():
            raise Fault
        self.note(("sync", name, 0, b"", True))

    def crash(self, picks):
        """The disk after a crash: the first pick is of the newest call, and a call without one is done."""
        left, seen = dict(self.base), dict(self.base)
        for place, (kind, name, at, piece, done) in enumerate(self.past):
            back = len(self.past) - 1 - place
            pick = picks[back] if back < len(picks) else None
            if kind == "sync":
                if pick and left[name] != seen[name]:
                    raise NotAnImage
            elif kind == "cut":
                if pick not in (None, "nothing") or (pick is None and done):
                    left[name] = left[name][:at]
                if done:
                    seen[name] = seen[name][:at]
            else:
                torn = {"zeros": b"\0" * len(piece), "ones": b"\1" * len(piece), "half": piece[:len(piece) // 2],
                        "whole": piece, None: piece if done else None, "nothing": None}[pick]
                if torn is not None:
                    left[name] = put(left[name], at, torn)
                if done:
                    seen[name] = put(seen[name], at, piece)
        after = Disk([left["head"], left["one"], left["two"]], self.failing, self.room)
        after.calls = self.calls
        return after


def record(payload):
    return b"\1" + struct.pack(">I", len(payload)) + hashlib.md5(payload).digest() + payload


def log_of(payloads):
    return b"MTLOG002" + b"".join(record(p) for p in payloads) + b"\0"


class Refused(Exception):
    pass


def scan(data):
    """The payloads of a log with their places, or its first fault from the front."""
    if len(data) < 9 or data[:8] not in (b"MTLOG001", b"MTLOG002"):
        raise Refused("NotALog")
    if data[:8] == b"MTLOG001":
        raise Refused("OldVersion")
    return records(data)


def records(data):
    at, found = 8, []
    while True:
        left = len(data) - at
        if left == 0:
            raise Refused(f"Short {{ at: {at}, wanted: 1, left: 0 }}")
        if data[at] != 1:
            return found, at
        if left < 21:
            raise Refused(f"Short {{ at: {at}, wanted: 21, left: {left} }}")
        size, = struct.unpack(">I", data[at + 1:at + 5])
        if left < 21 + size:
            raise Refused(f"Short {{ at: {at}, wanted: {21 + size}, left: {left} }}")
        payload, kept = data[at + 21:at + 21 + size], data[at + 5:at + 21]
        if hashlib.md5(payload).digest() != kept:
            raise Refused(f"Damaged {{ at: {at}, kept: {kept.hex()}, computed: {hashlib.md5(payload).hexdigest()} }}")
        found.append((at, payload))
        at += 21 + size


class Log:
    """A log on a disk, with the calls that docs/proof/FORMATS.md lists."""

    def __init__(self, disk, limit, takes_old=False):
        self.disk, self.limit, self.closed, self.is_old = disk, limit, False, False
        try:
            for name in ("head", "one", "two"):
                disk.sync(name)
            if disk.len("head") == 0:
                disk.cut("one", 0)
                disk.write("one", 0, b"MTLOG002\0")
                disk.sync("one")
                self.name_one()
                self.file, self.gate = "one", 8
                return
            self.file = "one"
            if disk.read("head", 0, 1) == b"\2":
                if disk.len("two") >= 9:
                    self.file = "two"
                else:
                    self.name_one()
            size = disk.len(self.file)
            if size < 9:
                raise Refused("NotALog")
            data = disk.read(self.file, 0, size)
        except Fault:
            raise Refused("Disk")
        self.is_old = data[:8] == b"MTLOG001"
        self.gate = (records if takes_old and data[:8] == b"MTLOG001" else scan)(data)[1]

    def name_one(self):
        self.disk.write("head", 0, b"\1")
        self.disk.sync("head")

    def publish(self, at):
        self.disk.sync(self.file)
        self.disk.write(self.file, at, b"\1")
        self.disk.sync(self.file)

    def append(self, payload):
        if self.closed:
            return "Err(Closed)"
        if self.gate + 21 + len(payload) + 1 > self.limit:
            return "Err(Full)"
        at, disk = self.gate, self.disk
        try:
            disk.write(self.file, at + 1, record(payload)[1:21])
            disk.write(self.file, at + 21, payload)
            disk.write(self.file, at + 21 + len(payload), b"\0")
            self.publish(at)
        except Fault:
            self.closed = True
            return "Err(Disk)"
        self.gate = at + 21 + len(payload)
        return f"Ok({at})"

    def run(self, payloads):
        """What each record of a run is told, and its end."""
        told, next = self.add_all(payloads)
        return told, self.end(next)

    def drop(self, payloads, more):
        """The same of a run that is given up, and whether there was room for so many bytes more."""
        told, next = self.add_all(payloads)
        room = "true" if next + 21 + more + 1 <= self.limit else "false"
        if self.closed:
            return told, room, "Err(Closed)"
        try:
            if next > self.gate:
                self.disk.sync(self.file)
        except Fault:
            self.closed = True
            return told, room, "Err(Disk)"
        return told, room, "Ok(())"

    def add_all(self, payloads):
        told, next = [], self.gate
        for payload in payloads:
            if self.closed:
                told.append("Err(Closed)")
            elif next + 21 + len(payload) + 1 > self.limit:
                told.append("Err(Full)")
            else:
                try:
                    first = next == self.gate
                    self.disk.write(self.file, next + first, record(payload)[first:21])
                    self.disk.write(self.file, next + 21, payload)
                    told.append(f"Ok({next})")
                    next += 21 + len(payload)
                except Fault:
                    self.closed = True
                    told.append("Err(Disk)")
        return told, next

    def end(self, next):
        if self.closed:
            return "Err(Closed)"
        try:
            if next > self.gate:
                self.disk.write(self.file, next, b"\0")
                self.publish(self.gate)
        except Fault:
            self.closed = True
            return "Err(Disk)"
        self.gate = next
        return "Ok(())"

    def next(self, place, size):
        behind = place + 21 + size
        return f"Some({behind})" if behind <= self.gate else "None"

    def payloads(self):
        return [p for _, p in records(self.disk.now[self.file])[0]]


def shown(data):
    """Bytes as an answer shows them."""
    named = {9: "\\t", 10: "\\n", 13: "\\r", 92: "\\x5c"}
    return "".join(named.get(b) or (chr(b) if 32 <= b <= 126 else f"\\x{b:02x}") for b in data)


def whole(data):
    return shown(data) or "\\e"


def word(data):
    return whole(data).replace(" ", "\\s")


def row(line, answer=None):
    print(line if answer is None else f"{line:<48} => {answer}")


def opened(disk, limit, takes_old=False):
    try:
        log = Log(disk, limit, takes_old)
        return log, f"Ok({log.gate + 1})"
    except Refused as why:
        return None, str(why)


def stop(files, steps, call, picks):
    """The answer to a session that is stopped."""
    disk = Disk(files, [call])
    log, answer = opened(disk, 200)
    for step, payloads in steps if log else []:
        if step == "append":
            told = payloads if log.append(payloads[0]).startswith("Ok") else []
        else:
            told = payloads if log.run(payloads)[1].startswith("Ok") else []
        answer += "".join(" " + whole(p) for p in told)
    try:
        left = disk.crash(picks)
    except NotAnImage:
        return answer + "; no image"
    log, again = opened(left, 200)
    payloads = log.payloads() if log else []
    return f"{answer}; left {again}{''.join(' ' + whole(p) for p in payloads)}, head {whole(left.now['head'])}"


def stops(files, steps, calls, counts):
    for call in range(calls):
        for pick in PICKS:
            for count in counts:
                if count or pick == PICKS[0]:
                    picks = [pick] * count
                    row(" ".join(["stop", str(call)] + picks), stop(files, steps, call, picks))


class Ahead:
    """A disk that reads ahead in One, by the page of mt_ahead: `end` bytes are known to be there, and `held` of them from `at` on."""

    def __init__(self, disk, window):
        self.disk, self.window, self.known = disk, window, (len(disk.now["one"]), 0, b"")

    def read(self, at, count):
        end, first, held = self.known
        if count >= self.window or at + count > end:
            return self.disk.read("one", at, count)
        if at < first or at + count > first + len(held):
            first, held = at, self.disk.read("one", at, min(self.window, end - at))
            self.known = end, first, held
        return held[at - first:][:count]

    def change(self, call, name, *words):
        kept, self.known = (0, 0, b"") if name == "one" else self.known, (0, 0, b"")
        getattr(self.disk, call)(name, *words)
        self.known = kept


class Table:
    """A disk and a log, of whose calls each becomes a row."""

    def disk(self, head, one, two, failing=(), room=ROOM):
        self.it = Disk([head, one, two], failing, room)
        row(" ".join(["disk", word(head), word(one), word(two)] + [str(n) for n in failing]))

    def told(self, line, call):
        try:
            answer = call()
            row(line, "Ok(())" if answer is None else f"Ok({answer})")
        except Fault:
            row(line, "Err(DiskFault)")

    def len(self, name):
        self.told(f"len {name}", lambda: self.it.len(name))

    def write(self, name, at, piece):
        self.told(f"write {name} {at} {word(piece)}", lambda: self.it.write(name, at, piece))

    def cut(self, name, to):
        self.told(f"cut {name} {to}", lambda: self.it.cut(name, to))

    def sync(self, name):
        self.told(f"sync {name}", lambda: self.it.sync(name))

    def read(self, name, at, count):
        try:
            row(f"read {name} {at} {count}", "Ok(()) " + whole(self.it.read(name, at, count)))
        except Fault:
            row(f"read {name} {at} {count}", "Err(DiskFault) " + "\\x00" * count)

    def ahead(self, window, call, name, place, *piece):
        before, over, done = self.it.calls, Ahead(self.it, window), "Ok(())"
        first = whole(over.read(0, 2))
        try:
            over.change(call, name, place, *piece)
        except Fault:
            done = "Err(DiskFault)"
        second = whole(over.read(2, 2))
        row(" ".join([f"ahead {window} {call} {name} {place}", *map(word, piece)]), f"Ok(()) {first}, {done}, Ok(()) {second}; {self.it.calls - before} calls")

    def file(self, name):
        row(f"file {name}", whole(self.it.now[name]))

    def calls(self):
        row("calls", self.it.calls)

    def crash(self, *picks):
        line = " ".join(("crash",) + picks)
        try:
            self.it = self.it.crash(picks)
            row(line, ", ".join(f"{name} {whole(self.it.now[name])}" for name in ("head", "one", "two")))
        except NotAnImage:
            row(line, "NotAnImage")

    def open(self, limit, call="open"):
        self.log, answer = opened(self.it, limit, call == "open-any")
        row(f"{call} {limit}", answer)

    def append(self, payload):
        row(f"append {word(payload)}", self.log.append(payload))

    def run(self, *payloads):
        told, end = self.log.run(payloads)
        row(" ".join(["run"] + [word(p) for p in payloads]), ", ".join(told + [f"end {end}"]))

    def drop_run(self, more, *payloads):
        told, room, end = self.log.drop(payloads, more)
        row(" ".join(["drop-run", str(more)] + [word(p) for p in payloads]), ", ".join(told + [f"room {room}", f"dropped {end}"]))

    def next(self, place, size):
        row(f"next {place} {size}", self.log.next(place, size))

    def log_is(self):
        """Two rows. To read a payload takes a call of the disk for its length and, where it has bytes, one for them."""
        log = self.log
        told = ["true" if it else "false" for it in (log.closed, log.is_old)]
        row("log", f"{log.gate + 1} bytes, limit {log.limit}, closed {told[0]}, old {told[1]}")
        if not log.closed:
            self.it.calls += sum(1 + bool(p) for p in log.payloads())
            row("payloads", f"{log.gate + 1} bytes:" + "".join(" " + whole(p) for p in log.payloads()))

    def read_at(self, place):
        payload = dict(records(self.it.now[self.log.file])[0])[place]
        try:
            self.it.read(self.log.file, place + 1, 4)
            if payload:
                self.it.read(self.log.file, place + 21, len(payload))
            row(f"read-at {place}", "Ok(()) " + whole(payload))
        except Fault:
            row(f"read-at {place}", "Err(Disk) \\e")

    def read_part(self, place, start, count):
        payload = dict(records(self.it.now[self.log.file])[0])[place]
        try:
            if count:
                self.it.read(self.log.file, place + 21 + start, count)
            row(f"read-part {place} {start} {count}", "Ok(()) " + whole(payload[start:start + count]))
        except Fault:
            row(f"read-part {place} {start} {count}", "Err(Disk) " + "\\x00" * count)


def say(*lines):
    print()
    for line in lines:
        print("# " + line)


def disks(t):
    room = (16, 4, 16)
    print("# The wanted answers are written by `python3 wanted.py`, which follows docs/proof/FORMATS.md by struct and hashlib. `disk` makes")
    print("# a disk in memory of Head, One and Two; behind them are the numbers of its calls that fail. `\\e` is no byte.")
    say("A read gives what was written.")
    row("room 16 4 16")
    t.disk(b"h", b"abcd", b"ef", room=room)
    t.write("one", 2, b"XYZ")
    t.read("one", 1, 3)
    t.len("one")
    t.calls()
    t.file("head")
    t.file("one")
    t.file("two")
    t.cut("one", 1)
    t.file("one")
    say("The listed calls fail, and no others.")
    t.disk(b"", b"abcd", b"", [1, 3, 5], room)
    t.write("two", 0, b"x")
    t.cut("one", 0)
    t.sync("two")
    t.len("two")
    t.len("one")
    t.read("one", 0, 2)
    t.read("one", 0, 2)
    t.calls()
    say("A call past the room is a fault: of a file 16 bytes, of the bytes written 16, of the calls four.")
    t.disk(b"", b"", b"", room=room)
    t.write("one", 0, b"0123456789abcdefg")
    t.write("two", 0, b"0123456789")
    t.write("one", 0, b"0123456")
    for _ in range(4):
        t.sync("two")
    t.cut("two", 0)
    crashes(t, room)


def reads_ahead(t):
    say("Over a disk that reads ahead in One: a write or a cut of another file keeps what was read, and the next read makes no call. One of One")
    print("# forgets it, and so does one that fails; and a window that has no more bytes than a read is never filled.")
    for window, *call in [(4, "write", "two", 2, b"z"), (4, "cut", "two", 0), (4, "write", "one", 4, b"z"), (4, "cut", "one", 4), (2, "write", "two", 2, b"z")]:
        t.disk(b"", b"abcdef", b"xy")
        t.ahead(window, *call)
    for call in [("write", "two", 2, b"z"), ("cut", "two", 0)]:
        t.disk(b"", b"abcdef", b"xy", [1])
        t.ahead(4, *call)


def crashes(t, room):
    say("A crash leaves the part of a write that is picked; a write that failed may be left in part too.")
    for failing, picks in [((), PICKS), ((0,), PICKS)]:
        for pick in picks:
            t.disk(b"h", b"abcd", b"", failing, room)
            t.write("one", 2, b"WXYZ")
            t.crash(pick)
            t.calls()
    t.disk(b"h", b"abcd", b"", [0], room)
    t.write("one", 2, b"WXYZ")
    t.crash()
    say("A write that is lost leaves zeros before a later one.")
    t.disk(b"", b"ab", b"", room=room)
    t.write("one", 2, b"cd")
    t.write("one", 4, b"ef")
    t.crash("whole", "nothing")
    say("A write that was synced, and a cut that was not: the cut has the first pick, the sync the second.")
    for picks in [(), ("nothing",), ("nothing", "half", "whole"), ("whole", "whole", "half")]:
        t.disk(b"", b"abcd", b"", room=room)
        t.write("one", 0, b"WX")
        t.sync("one")
        t.cut("one", 2)
        t.crash(*picks)


def openings(t):
    file = log_of(WORDS)
    say("A log of six payloads, added one by one and as a run, and its bytes. Making a log takes nine calls of the disk, an append six,", "a record of a run two and its end four.")
    row("room 256 64 512")
    t.disk(b"", b"", b"")
    t.open(200)
    t.calls()
    for p in WORDS[:3]:
        t.append(p)
    t.calls()
    t.run(*WORDS[3:])
    t.calls()
    t.log_is()
    assert t.it.now["one"] == file
    t.file("head")
    t.file("one")
    t.file("two")
    say("A log is opened, or its first fault is told. Head names One unless it begins with the byte 2 and Two is as long as a log.")
    for head, one, two in [(b"", b"", b""), (b"\7more", file, b""), (b"\2", file, b""), (b"\2", b"", file), (b"\1", file[:56] + b"\0" + file[57:], b"")]:
        t.disk(head, one, two)
        t.open(200)
        t.log_is()
        t.file("head")
    for one in [b"MTLOG002", b"MTLOG003\0", b"MTLOG001\0", b"", file[:30] + b"0" + file[31:], file[:9] + b"\1" + file[10:], file[:156], file[:140], file[:154]]:
        t.disk(b"\1", one, b"")
        t.open(200)
    say("The old version is opened by `open-any` alone, with the same records.")
    t.disk(b"\1", b"MTLOG001" + file[8:], b"")
    t.open(200)
    t.open(200, "open-any")
    t.log_is()
    t.disk(b"\1", file, b"")
    t.open(200, "open-any")
    t.open(200)
    t.calls()


def limits(t):
    say("A limit is met exactly.")
    for limit in range(31, 35):
        t.disk(b"", b"", b"")
        t.open(limit)
        row("has-room 3", "true" if limit >= 33 else "false")
        t.append(b"one")
        t.log_is()
    say("A record of a run that passes the limit is left out, and the run goes on. A run of none makes no call.")
    t.disk(b"", b"", b"")
    t.open(85)
    t.run(b"one", b"more", b"abcdefgh", b"ab", b"")
    t.log_is()
    t.run(b"more")
    t.calls()
    t.run()
    t.calls()
    say("A run that is given up adds nothing, and one sync is its end; `drop-run` asks whether there is room for so many bytes more.")
    t.disk(b"", b"", b"")
    t.open(60)
    t.drop_run(5, b"one")
    t.drop_run(6, b"one")
    t.calls()
    t.log_is()
    t.drop_run(29)
    t.drop_run(30)
    t.calls()
    t.run(b"other")
    t.log_is()
    say("A log that is closed takes no more.")
    row("close")
    t.log.closed = True
    t.append(b"")
    t.run(b"")
    t.drop_run(0, b"")
    t.log_is()
    t.calls()
    t.disk(b"", b"", b"", [11])
    t.open(60)
    t.drop_run(0, b"one")
    t.log_is()
    say("Payloads by their places; an empty one.")
    t.disk(b"\2", b"", log_of([b"one", b"", b"three"]))
    t.open(200)
    row("first", 8)
    for place, size in [(8, 3), (32, 0), (53, 5), (53, 6), (79, 0), (8, 2 ** 64 - 1)]:
        t.next(place, size)
    for place, size in [(8, 3), (32, 0), (53, 5)]:
        t.it.len("two")
        row(f"payload-len {place}", f"Ok({size})")
    t.read_at(8)
    t.read_at(32)
    t.read_at(53)
    t.calls()
    t.read_part(53, 1, 3)
    t.read_part(53, 5, 0)
    t.calls()
    t.append(b"four")
    t.log_is()
    t.file("two")


def faults(t):
    say("A fault of the disk closes the log; one of a read does not.")
    t.disk(b"\1", log_of([b"one"]), b"", [7, 10, 12])
    t.open(200)
    t.read_at(8)
    t.read_at(8)
    t.read_part(8, 0, 2)
    t.append(b"two")
    t.append(b"three")
    t.run(b"four", b"five")
    t.log_is()
    t.calls()
    t.crash()
    t.open(200)
    t.log_is()


def sessions():
    say("Sessions that are stopped: the number of the call of the disk that fails, and what a crash leaves of the last calls, the newest", "first. The answer: how the log was opened, the payloads that it said it has, how what was left was opened, and its payloads.")
    row("disk \\e \\e \\e")
    for line in ["steps", "step append one", "step append two", "step append three", "step run four five six"]:
        row(line)
    steps = [("append", [p]) for p in WORDS[:3]] + [("run", WORDS[3:])]
    stops([b"", b"", b""], steps, 37, (1, 2, 8))
    row("steps")
    file = log_of(WORDS)
    for head, calls in [(b"\1", 7), (b"\2", 10)]:
        say("An opening of a log of six payloads is stopped.")
        row(f"disk {word(head)} {word(file)} \\e")
        stops([head, file, b""], [], calls, (0, 1, 2))


def main():
    t = Table()
    disks(t)
    reads_ahead(t)
    openings(t)
    limits(t)
    faults(t)
    sessions()


main()
