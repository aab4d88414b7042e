#!/usr/bin/env python3
"""Prints the wanted table of body_rows: `python3 wanted.py | diff - stdout`.

It follows docs/proof/FORMATS.md and the README of mt_body with struct and hashlib, and knows nothing of their code.
"""
import hashlib
import struct

PIECE = 65_536


def pattern(n):
    return bytes((i % 251) ^ (i // 256 % 256) for i in range(n))


def md5(data):
    return hashlib.md5(data).hexdigest()


def shown(data):
    return f"{len(data)} bytes {md5(data)}"


class Log:
    """The payloads of a log, and what stands in its file."""

    def __init__(self, limit):
        self.limit, self.size, self.closed = limit, 9, False
        self.file = b"MTLOG002\0"
        self.failing, self.made = set(), 0

    def call(self):
        """Whether the next call of the disk succeeds."""
        self.made += 1
        return self.made - 1 not in self.failing


def record(payload):
    return b"\1" + struct.pack(">I", len(payload)) + hashlib.md5(payload).digest() + payload


def write(log, at, piece):
    if log.call():
        log.file = log.file[:at].ljust(at, b"\0") + piece + log.file[at + len(piece):]
        return True
    return False


class State:
    def __init__(self):
        self.log, self.source, self.body = None, (b"", 0, []), None

    def read(self, buffer):
        """The bytes of a source up to so many: those that came, and why no more."""
        bytes_, most, failing = self.source
        got = b""
        while len(got) < buffer:
            self.reads += 1
            if self.reads - 1 in failing:
                self.faults += 1
                return got, "failed"
            if self.at == len(bytes_):
                return got, "ended"
            n = min(len(bytes_) - self.at, buffer - len(got), most or len(bytes_))
            got += bytes_[self.at:self.at + n]
            self.at += n
        return got, "whole"

    def store(self):
        log = self.log
        self.reads = self.at = self.faults = 0
        gate, next_ = log.size - 1, log.size - 1
        taken, pieces, answer, first = b"", [], None, 0
        while answer is None:
            got, why = self.read(PIECE)
            taken += got
            if got:
                payload = b"\0" + got
                if next_ + 21 + len(payload) + 1 > log.limit:
                    answer = "SourceFault" if why == "failed" else "Full"
                    break
                data = record(payload)
                head = 1 if next_ == gate else 0
                if not (write(log, next_ + head, data[head:21]) and write(log, next_ + 21, payload)):
                    answer, log.closed = "Disk", True
                    break
                first = first or next_
                next_ += len(data)
                pieces.append(payload)
            if why != "whole":
                answer = "SourceFault" if why == "failed" else "Stored"
        if answer == "Full":
            end = "Ended"
            while True:
                got, why = self.read(4096)
                taken += got
                if why != "whole":
                    end = "SourceFault" if why == "failed" else "Ended"
                    break
            answer = f"Full, {end}"
        if answer == "Stored":
            answer = f"Stored {first} {len(taken)} {md5(taken)}"
            self.body = taken
        end = "Ok(())"
        if log.closed:
            end = "Err(Closed)"
        elif next_ != gate:
            if write(log, next_, b"\0") and log.call() and write(log, gate, b"\1") and log.call():
                log.size = next_ + 1
            else:
                end, log.closed = "Err(Disk)", True
        left = len(self.source[0]) - self.at
        self.source, faults = (b"", 0, []), self.faults
        return f"{answer}; {end}, log {log.size}; digest {md5(taken)}; calls {log.made}; left {left}, failed {faults}"

    def spans(self, at, to, most):
        """The parts that a read from a place on is made of."""
        while at < to:
            n = min(to - at, most, PIECE - at % PIECE)
            yield at, at + n
            at += n

    def part(self, at, n):
        out = b""
        for a, b in self.spans(at, at + n, n):
            if not self.log.call():
                return f"Err(DiskFault) {shown(out.ljust(n, bytes(1)))}; calls {self.log.made}"
            out += self.body[a:b]
        return f"Ok(()) {shown(out)}; calls {self.log.made}"

    def send(self, at, to, buffer, room, most):
        got, writes = b"", 0
        for a, b in self.spans(at, to, buffer):
            if not self.log.call():
                return f"Disk {shown(got)}; calls {self.log.made}, writes {writes}"
            while a < b:
                writes += 1
                n = min(b - a, most, room - len(got))
                if n == 0:
                    return f"SinkFault {shown(got)}; calls {self.log.made}, writes {writes}"
                got += self.body[a:a + n]
                a += n
        return f"Whole {shown(got)}; calls {self.log.made}, writes {writes}"

    def answer(self, call, numbers):
        if call == "open":
            self.log, self.body = Log(*numbers), None
            self.first = 7
            return "Ok(9)"
        if call == "source":
            self.source = (pattern(numbers[0]), numbers[1], numbers[2:])
            return None
        if call == "fail":
            self.log.failing, self.log.made = set(numbers), 0
            return None
        if call == "one":
            return shown(self.log.file)
        return getattr(self, call)(*numbers)


def rows():
    yield "# The wanted answers are written by `python3 wanted.py`. `open`: a new log under a limit. `source`: so many bytes, the most that a"
    yield "# read takes or 0, and the reads that fail. `store`: what became of it, its run, the log's length and the digest of what came."
    yield ""
    yield "# Bodies in and out, from and to each boundary."
    for n in (0, 1, 65_535, 65_536, 65_537, 1_000_000):
        yield "open 1200000"
        yield f"source {n} 0"
        yield "fail"
        yield "store"
        yield "one"
        places = sorted({p for p in (0, 1, 65_535, 65_536, 65_537, 131_072, n - 1, n) if 0 <= p <= n})
        for at in places:
            for to in places:
                if at <= to and (n < 100_000 or to - at < 70_000 or (at, to) == (0, n)):
                    yield "fail"
                    yield f"part {at} {to - at}"
                    yield "fail"
                    yield f"send {at} {to} 65536 1200000 1200000"
        yield "fail"
        yield f"send 0 {n} 1000 1200000 1200000" if n < 100_000 else f"send 0 {n} 300000 1200000 50000"
        yield ""
    yield "# Two bodies in a log: the second one begins behind the first. An empty one has the place 0."
    yield "open 1000000"
    for n in (70_000, 0, 3, 131_072):
        yield f"source {n} 1000"
        yield "fail"
        yield "store"
        yield "fail"
        yield f"part 0 {n}"
    yield "one"
    yield ""
    yield "# A source that fails: at once, within a piece, at the end of one, behind its last byte. What came is in the run."
    for n, most, failing in ((10, 4, 0), (10, 4, 1), (10, 4, 2), (10, 4, 3), (100_000, 4096, 10), (100_000, 4096, 16), (100_000, 4096, 17), (65_536, 65_536, 1), (65_536, 65_536, 0)):
        yield "open 1000000"
        yield f"source {n} {most} {failing}"
        yield "fail"
        yield "store"
        yield "one"
    yield ""
    yield "# Room for one piece of three, and one byte more or less than each piece asks for."
    for limit in (9, 10, 31, 32, 65_566, 65_567, 65_568, 65_588, 65_589, 131_124, 131_125, 131_126, 131_147, 131_148, 151_000):
        yield f"open {limit}"
        yield "source 150000 0"
        yield "fail"
        yield "store"
        yield "one"
    yield ""
    yield "# A log without room for an empty piece takes an empty body, and no byte; a source that fails there is no full log."
    for n, failing in ((0, ""), (1, ""), (65_537, " 1"), (200_000, " 3"), (200_000, " 4")):
        yield "open 65567"
        yield f"source {n} 65536{failing}"
        yield "fail"
        yield "store"
    yield ""
    yield "# Each call of the disk fails while three pieces are stored and their run is ended."
    for fail in range(11):
        yield "open 1000000"
        yield "source 150000 0"
        yield f"fail {fail}"
        yield "store"
    yield ""
    yield "# Each call fails while a part is read and sent, and each write: the sink has room for so many."
    yield "open 1000000"
    yield "source 150000 0"
    yield "fail"
    yield "store"
    for fail in range(4):
        yield f"fail {fail}"
        yield "part 1 149998"
        yield f"fail {fail}"
        yield "send 1 149999 65536 1000000 40000"
    for room in (0, 1, 65_535, 65_536, 100_000, 149_997, 149_998):
        yield "fail"
        yield f"send 1 149999 65536 {room} 40000"


def main():
    state = State()
    for row in rows():
        if not row or row.startswith("#"):
            print(row)
            continue
        call, *numbers = row.split()
        answer = state.answer(call, [int(n) for n in numbers])
        print(row if answer is None else f"{row:<48} => {answer}")


main()
