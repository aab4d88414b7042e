#!/usr/bin/env python3
"""Prints the wanted table of spawn_rows: `python3 wanted.py | diff - stdout`.

It follows the README of mt_spawn: children that end by a script, whichever of them is due first in the order of their starts; what one
wrote, read in parts; and files by number.
"""


def word(data):
    return data.replace(" ", "\\s") or "\\e"


def shown(data):
    """As it is printed: only a blank at the end is no blank."""
    return (data[:-1] + "\\s" if data.endswith(" ") else data) or "\\e"


def row(line, answer=None):
    print(line if answer is None else f"{line:<48} => {answer}")


def say(*lines):
    print()
    for line in lines:
        print("# " + line)


class Spawner:
    """Children by a script; `never` is one that never fails, whose children all end at once."""

    def __init__(self, waits=(), otherwise=(), starts_fail=(), waits_fail=(), reads_fail=(), waits_lose=(), too_large=None, never=False):
        for name, numbers in [("waits", waits), ("otherwise", otherwise), ("starts-fail", starts_fail), ("waits-fail", waits_fail), ("waits-lose", waits_lose), ("reads-fail", reads_fail)]:
            if numbers:
                row(" ".join([name] + [str(n) for n in numbers]))
        if too_large:
            row(f"too-large {too_large}")
        row("never-fails" if never else "spawner")
        self.plan = (waits, otherwise, starts_fail, waits_fail, reads_fail)
        self.waits_lose = waits_lose
        self.too_large, self.never = too_large, never
        self.live, self.held = [], None
        self.starts = self.tickets = self.waited = self.reads = self.failed = self.in_vain = self.company = 0

    def start(self, run, base, data, *assets, cut=False):
        waits, otherwise, starts_fail, _, _ = self.plan
        number = self.starts
        size = len(data) + sum(len(a) for a in assets)
        if not self.never:
            self.starts += 1
        if not self.never and number in starts_fail:
            self.failed += 1
            answer = f"Failed, left {size}"
        elif cut:
            answer = f"InputFailed, left {size}"
        else:
            due = 0 if self.never else self.waited + (waits[number] if number < len(waits) else 0)
            status = 7 if not self.never and number in otherwise else 0
            self.live.append((self.tickets, due, status, run, data, base))
            answer = f"Began(Ticket {{ number: {self.tickets} }}), left 0"
            self.tickets += 1
        row(" ".join(["start-cut" if cut else "start", word(run), base, word(data), *map(word, assets)]), answer)

    def wait(self, said="wait"):
        number = self.waited
        if not self.never:
            self.waited += 1
        if not self.never and number in self.plan[3]:
            child = self.live.pop(0)
            self.failed += 1
            return row(said, f"Failed {child[0]}")
        if not self.never and number in self.waits_lose:
            return row(said, f"Lost {self.live.pop(0)[0]}")
        due = [child for child in self.live if child[1] <= number]
        if not due:
            self.in_vain += 1
            return row(said, "NotYet")
        self.company += len(self.live)
        self.live.remove(due[0])
        ticket, _, status, run, data, base = due[0]
        self.held = ("", []) if self.too_large else (data, [base])
        made = f"too large {self.too_large}" if self.too_large else f"out {len(data)}, files 3:{len(base)}"
        row(said, f"Ended {ticket}: status {status}, stderr {shown(run)}, {made}")

    def piece(self, part, at, count):
        """What one read gives: None where it fails."""
        number = self.reads
        if not self.never:
            self.reads += 1
            if number in self.plan[4]:
                self.failed += 1
                return None
        out, files = self.held or ("", [])
        data = out if part == "out" else files[part] if part < len(files) else ""
        return data[at : at + count]

    def read(self, part, at, count):
        got = self.piece(part, at, count)
        row(f"read {part} {at} {count}", "Failed" if got is None else f"Took({len(got)}) {shown(got)}" if got else "End")

    def part(self, part, at, to):
        said = [f"{max(to - at, 0)} bytes:"]
        line = f"part {part} {at} {to}"
        for _ in range(9):
            got = self.piece(part, at, min(4, to - at)) if at < to else ""
            said.append("Failed" if got is None else f"Took({len(got)}) {shown(got)}" if got else "End")
            at += len(got or "")
            if got == "":
                break
        row(line, " ".join(said))

    def release(self):
        self.held = None
        row("release")

    def kill(self, ticket):
        self.live = [child for child in self.live if child[0] != ticket]
        row(f"kill {ticket}")

    def counts(self):
        row("counts", f"live {len(self.live)}, starts {self.starts}, failed {self.failed}, in vain {self.in_vain}, company {self.company}")


class Spool:
    def __init__(self, room, *failing):
        row(" ".join(["spool", str(room)] + [str(n) for n in failing]))
        self.room, self.failing, self.files = room, failing, {}
        self.calls = self.failed = 0

    def fails(self):
        self.calls += 1
        self.failed += self.calls - 1 in self.failing
        return self.calls - 1 in self.failing

    def create(self, number):
        if self.fails():
            return row(f"create {number}", "Failed")
        row(f"create {number}", "Taken" if number in self.files else "Done")
        self.files.setdefault(number, "")

    def append(self, number, piece):
        answer = "Err(SpoolFault)"
        if not self.fails():
            left = self.room - sum(len(data) for data in self.files.values())
            self.files[number] += piece[:left]
            if len(piece) <= left:
                answer = "Ok(())"
            else:
                self.failed += 1
        row(f"append {number} {word(piece)}", answer)

    def show(self):
        row("files", "".join(f"{number}:{data}, " for number, data in self.files.items()) + f"failed {self.failed}")


def three(*waits, **script):
    s = Spawner(waits=waits, **script)
    s.start("cat", "/l/a", "one")
    s.start("sort", "/l/b", "two", "asset")
    s.start("wc", "/l/c", "")
    return s


def orders():
    print("# The wanted answers are written by `python3 wanted.py`. `waits`: of each start, how many waits in vain its child takes. A child writes its")
    print("# input to standard output, its base to the record file 3, and its command line to standard error; it ends with 0, or otherwise with 7.")
    say("Three children end in each order: of those that are due, the one that was started first is found. Two due at once, and waits in vain.")
    for waits in [(0, 0, 0), (0, 1, 2), (0, 2, 1), (1, 0, 2), (2, 0, 1), (1, 2, 0), (2, 1, 0), (1, 1, 0), (3, 3, 3)]:
        s = three(*waits)
        for _ in range(3 + max(max(waits) - 2, 0)):
            s.wait()
            s.release()
        s.counts()
    say("The same of three that each end at another wait, by looks alone, and by looks and waits in turn: a spawner in memory never waits.")
    for words in [("look", "look"), ("look", "wait")]:
        for waits in [(0, 1, 2), (0, 2, 1), (1, 0, 2), (2, 0, 1), (1, 2, 0), (2, 1, 0), (3, 3, 3)]:
            s = three(*waits)
            for number in range(3 + max(max(waits) - 2, 0)):
                s.wait(words[number % 2])
                s.release()
            s.counts()


def failures():
    say("A start that fails: no child is there. One whose source fails. The next one gets the next ticket.")
    s = Spawner(starts_fail=(0, 2), waits=(0, 0, 0, 5))
    s.start("cat", "/l/a", "one")
    s.start("cat", "/l/b", "two", cut=True)
    s.start("cat", "/l/c", "three", "and", "more")
    s.counts()
    s.start("cat", "/l/d", "four")
    s.counts()
    s.kill(0)
    s.counts()
    say("A wait that fails: the child that was started first is gone, and the others are not. A second attempt ends otherwise.")
    s = three(waits_fail=(0,), otherwise=(3,))
    s.wait()
    s.counts()
    s.wait()
    s.read(0, 0, 9)
    s.release()
    s.start("cat", "/l/a", "one")
    s.wait()
    s.release()
    s.wait()
    s.release()
    s.counts()
    say("A wait that is out of memory with a child: the one that was started first is gone, no fault is counted, and the others are found.")
    s = three(2, 1, 0, waits_lose=(0,))
    s.wait()
    s.counts()
    s.wait()
    s.release()
    s.wait("look")
    s.release()
    s.counts()
    say("A child that is killed is not waited for; the others are.")
    s = three(1, 0, 0)
    s.kill(1)
    s.counts()
    s.wait()
    s.release()
    s.wait()
    s.release()
    s.counts()
    say("A spawner that starts nothing.")
    row("start-nothing cat /l/a hello", "Failed, left 5")


def reads():
    say("What an ended child wrote, in parts: from a place on, past its end, of a file that is not there, and behind its release.")
    s = Spawner()
    s.start("cat -n", "/l/base", "some more input", "an asset")
    s.wait()
    for part, at, count in [("out", 0, 4), ("out", 5, 64), ("out", 14, 1), ("out", 15, 1), ("out", 99, 1), (0, 3, 64), (0, 7, 3), (1, 0, 9)]:
        s.read(part, at, count)
    for part, at, to in [("out", 0, 15), ("out", 5, 9), ("out", 9, 9), ("out", 9, 5), ("out", 10, 99), (0, 0, 7), (1, 0, 7)]:
        s.part(part, at, to)
    s.release()
    s.read("out", 0, 4)
    s.part(0, 0, 7)
    say("Reads that fail, the third of them midway, and are read again.")
    s = Spawner(reads_fail=(0, 3))
    s.start("cat", "/l/base", "some more input")
    s.wait()
    s.read("out", 0, 4)
    s.part("out", 0, 15)
    s.counts()
    say("A child that wrote too much: nothing of it is read.")
    s = Spawner(too_large=16_777_217)
    s.start("yes", "/l/base", "y")
    s.wait()
    s.read("out", 0, 4)
    s.part(0, 0, 7)
    s.release()
    say("The same script where nothing fails.")
    s = Spawner(waits=(2, 0), starts_fail=(0,), waits_fail=(0,), reads_fail=(0,), otherwise=(0,), never=True)
    s.start("cat", "/l/a", "one")
    s.start("cat", "/l/b", "two", cut=True)
    s.start("cat", "/l/b", "two")
    s.wait()
    s.read("out", 0, 4)
    s.part(0, 0, 4)
    s.release()
    s.kill(1)


def spools():
    say("Files are made once, and grow at their ends. With the room of six bytes the second piece of `b` has two left.")
    s = Spool(6)
    s.create(0)
    s.create(4094)
    s.create(0)
    s.append(4094, "abc")
    s.append(0, "d")
    s.show()
    s.append(4094, "efgh")
    s.show()
    s.append(0, "x")
    s.create(1)
    s.show()
    say("Calls that fail: nothing is made, and nothing is added.")
    s = Spool(99, 0, 2)
    s.create(7)
    s.create(7)
    s.append(7, "abc")
    s.append(7, "abc")
    s.show()


def main():
    orders()
    failures()
    reads()
    spools()


main()
