#!/usr/bin/env python3
"""Prints the wanted table of edge_rows: `python3 wanted.py | diff - stdout`.

It follows the README of mt_edge: bytes that are read from the front, a sink that grows up to its room, and calls that fail by
their numbers.
"""
LAST_MOMENT = 253_402_300_799  # 9999-12-31T23:59:59Z: calendar.timegm of it


class Source:
    def __init__(self, data, most, failing):
        self.data, self.most, self.failing = data, most or len(data), failing
        self.calls = self.faults = 0

    def read(self, count, never_fails=False):
        if not never_fails:
            self.calls += 1
            if self.calls - 1 in self.failing:
                self.faults += 1
                return None
        taken = self.data[:min(count, self.most)]
        self.data = self.data[len(taken):]
        return taken


class Sink:
    def __init__(self, room, most, failing):
        self.room, self.most, self.failing, self.got = room, most or room, failing, b""
        self.calls = self.faults = 0

    def write(self, piece):
        self.calls += 1
        count = min(len(piece), self.most, self.room - len(self.got))
        if self.calls - 1 in self.failing or count == 0:
            self.faults += 1
            return None
        self.got += piece[:count]
        return count

    def write_all(self, piece):
        while piece:
            count = self.write(piece)
            if count is None:
                return "Err(SinkFault)"
            piece = piece[count:]
        return "Ok(())"


def shown(data):
    named = {9: "\\t", 10: "\\n", 13: "\\r", 92: "\\x5c"}
    return "".join(named.get(b) or (chr(b) if 32 <= b <= 126 else f"\\x{b:02x}") for b in data) or "\\e"


def word(data):
    return shown(data).replace(" ", "\\s")


def row(line, answer=None):
    print(line if answer is None else f"{line:<48} => {answer}")


def say(*lines):
    print()
    for line in lines:
        print("# " + line)


def step_of(taken):
    return "Failed" if taken is None else f"Took({len(taken)})" if taken else "End"


def echo(source, sink, never_fails=False):
    said = []
    for _ in range(9):
        taken = source.read(3, never_fails)
        said.append(step_of(taken))
        if taken == b"":
            break
        if taken:
            done = sink.write_all(taken)
            said[-1] += " " + done
            if done != "Ok(())":
                break
    return ", ".join(said)


class Table:
    def source(self, data, most=0, *failing):
        self.src = Source(data, most, failing)
        row(" ".join(["source", word(data), str(most)] + [str(n) for n in failing]))

    def sink(self, room, most=0, *failing):
        self.snk = Sink(room, most, failing)
        row(" ".join(["sink", str(room), str(most)] + [str(n) for n in failing]))

    def form(self, name):
        self.never = name == "never-fails"
        row(f"as {name}")

    def read(self, count, call="read"):
        taken = self.src.read(1 if call == "read-line" else count, self.never)
        row(f"{call} {count}", f"{step_of(taken)} {shown((taken or b'').ljust(count, bytes(1)))}")

    def write(self, piece):
        count = self.snk.write(piece)
        row(f"write {word(piece)}", "Failed" if count is None else f"Took({count})")

    def write_all(self, piece):
        row(f"write-all {word(piece)}", self.snk.write_all(piece))

    def echo(self):
        row("echo", echo(self.src, self.snk, self.never))

    def streams(self):
        s, k = self.src, self.snk
        row("streams", f"left {shown(s.data)}, reads {s.calls}, failed {s.faults}; written {shown(k.got)}, writes {k.calls}, failed {k.faults}")


def reads(t):
    print("# The wanted answers are written by `python3 wanted.py`. `source`: its bytes, the most that a read takes or 0, and the numbers")
    print("# of the reads that fail. `sink`: its room, the most that a write takes or 0, and the writes that fail. `as`: how they are called.")
    say("Reads are cut and fail as set: three bytes a read, until the end.")
    t.form("apart")
    t.sink(0)
    for most, failing in [(0, ()), (1, ()), (2, (0, 2)), (0, (2,))]:
        t.source(b"hello", most, *failing)
        while True:
            before = t.src.faults
            t.read(3)
            if not t.src.data and t.src.faults == before and t.src.calls > 2:
                break
        t.read(3)
        t.streams()
    say("A read of a line is a read of one byte; behind the line feed it goes on.")
    t.source(b"a\nb", 0, 1)
    for _ in range(5):
        t.read(8, "read-line")
    t.streams()


def writes(t):
    say("A failed write leaves a front. A write past the room is a fault.")
    t.source(b"")
    for room, most, failing in [(5, 0, ()), (9, 2, ()), (5, 2, (1,)), (3, 0, ()), (0, 0, ())]:
        t.sink(room, most, *failing)
        t.write_all(b"hello")
        t.streams()
    t.sink(4, 3, 1)
    for _ in range(5):
        t.write(b"hello")
    t.write_all(b"")
    t.streams()


def links(t):
    say("A link reads and writes: it writes back what is read. The first read fails.")
    t.source(b"hello", 0, 0)
    t.sink(9, 2)
    t.form("link")
    t.echo()
    t.streams()
    say("A source and a sink that lie apart are one link. The source's first read is set to fail, and does not where it never fails; the", "room is for nine bytes.")
    t.source(b"again", 0, 0)
    t.form("never-fails")
    t.echo()
    t.streams()
    t.source(b"again", 2, 1)
    t.sink(9, 2, 0)
    t.form("joined")
    t.read(3)
    t.read(3)
    t.read(3)
    t.write(b"ab")
    t.write(b"abc")
    t.write_all(b"cd")
    t.read(8, "read-line")
    t.read(8, "read-line")
    t.streams()
    for form in ["link", "never-fails"]:
        t.form(form)
        t.source(b"a\nb", 0, 0)
        t.read(2, "read-line")
        t.read(3)
        t.write(b"xyz")
        t.write_all(b"z")
        t.streams()


def doors(t):
    say("A door gives its links in order, each is served and given back, and what was written to each is kept. The door's second call", "fails, and so does one where no link waits.")
    served = []
    for data in [b"first", b"second"]:
        t.source(data, 0, 0)
        t.sink(9, 2)
        row("bring")
        served.append((t.src, t.snk))
    row("door 1")
    row("back", 0)
    row("visit", echo(*served[0]))
    row("visit", "None")
    row("back", f"1 {shown(served[0][1].got)}")
    row("visit", echo(*served[1]))
    row("visit", "None")
    row("back", f"2 {shown(served[0][1].got)} {shown(served[1][1].got)}")
    row("no-door", "None")


def outside():
    say("A clock that stands gives its moment, at each call; the last one is 9999-12-31T23:59:59Z. One of three moments gives them, one a call,", "and then the one behind them.")
    for moment in [0, 1_700_000_000, LAST_MOMENT]:
        row(f"clock {moment}", f"{moment} {moment}")
    row("last-moment", LAST_MOMENT)
    for calls, listed, later in [(2, [1, 2, 3], 4), (1, [7, 8, 9], 0), (3, [30, 20, 10], 5), (6, [0, LAST_MOMENT, 1], 1_700_000_000), (4, [5, 5, 5], LAST_MOMENT)]:
        given = [listed[n] if n < len(listed) else later for n in range(calls)]
        row(f"moments {calls} {' '.join(str(m) for m in listed)} {later}", " ".join(str(m) for m in given) or "\\e")


def main():
    t = Table()
    reads(t)
    writes(t)
    links(t)
    doors(t)
    outside()


main()
