#!/usr/bin/env python3
"""Prints the wanted table of runner_rows: `python3 wanted.py > stdout`, and stdin by docs/developer/CONTRIBUTING.md.

What stands and what is committed is that of tests/model.py and tests/turns.py; commands are functions of what they read, which stand below, and
so do children, slots and calls of the disk, by the pages of mt_runner, mt_tasks and mt_spawn. Nothing here knows the code.
"""
import hashlib
import json
import pathlib
import re
import struct
import sys

sys.path.insert(0, str(pathlib.Path(__file__).resolve().parents[2] / "tests"))
import turns as tasks  # noqa: E402
from model import Store, identifier, pieces_size, printed  # noqa: E402

PLAIN = {9: "\\t", 10: "\\n", 13: "\\r", 92: "\\x5c"}
PICKS = ("nothing", "zeros", "ones", "half", "whole")
MOST_SHOWN = 1_000


# Rows.
def escaped(data):
    return "".join(PLAIN.get(b, chr(b) if 32 <= b <= 126 else f"\\x{b:02x}") for b in data)


def shown(data):
    out = escaped(data) or "\\e"
    return out[:-1] + "\\s" if out.endswith(" ") else out


def word(data):
    """Bytes as a word of a row; more than 1,000 of one byte by their number."""
    if len(data) > 1_000 and data == data[:1] * len(data):
        most, rest = divmod(len(data), 65_536)
        return f"\\*65536.{chr(data[0])}" * most + (f"\\*{rest}.{chr(data[0])}" if rest else "")
    return escaped(data).replace(" ", "\\s") if data else "\\e"


def measured(data):
    return f"{len(data)} bytes " + (shown(data) if len(data) <= MOST_SHOWN else hashlib.md5(data).hexdigest())


# What commands do.
def emit(place, reducer, body):
    return tasks.record_bytes(tasks.Record("emit", place, reducer, body))


def split(data, count):
    """An output for each reducer, of the lines whose digests go to it."""
    parts = [b""] * count
    for line in re.findall(rb"[^\n]*\n|[^\n]+", data):
        parts[struct.unpack(">I", hashlib.md5(line.rstrip(b"\n")).digest()[:4])[0] % count] += line
    return [(k, emit(None, k, part)) for k, part in enumerate(parts)]


def work(run, data):
    name, *words = run.execute.split(" ")
    if name == "cat":
        return tasks.leaves(data)
    if name == "wc":
        return tasks.leaves(b"%d\n" % len(data))
    if name == "fail":
        return tasks.leaves(b"unread", status=int(words[0]), err=b"bad\n")
    if name == "msplit":
        return tasks.leaves(b"unread", files=split(data, int(words[0])))
    if name == "mpipe":
        return tasks.leaves(b"unread", files=[(k, emit(place, None, data)) for k, place in enumerate(words)])
    if name == "fill":
        return tasks.leaves(bytes(int(words[0])).replace(b"\0", b"x"))
    assert name == "saw"
    return tasks.leaves(said(run, data))


def said(run, data):
    """What a task reads: its input, and of each asset its name and its bytes."""
    return data + b"".join(b"|" + name.encode() + b"=" + body for name, body in run.assets)


def case_row(exec, reads, left):
    size = len(left.out) + sum(len(data) for _, data in left.files)
    front = f"{word(exec.encode())} {word(reads)} {left.status} {word(left.err)}"
    if size > tasks.LARGEST_OUTPUT:
        return f"large {front} {size}"
    return " ".join([f"case {front} {word(left.out)}", *(f"{number} {word(data)}" for number, data in left.files)])


class Logged(Store):
    """A store that tells its last command."""

    def accept(self, command, stored=0):
        super().accept(command, stored)
        self.command = command


class Crew:
    """Children, each with its task, the wait that finds its end, and its outcome."""

    def __init__(self, slots, ran, **script):
        self.slots, self.ran, self.script, self.live = slots, ran, script, []
        self.starts, self.waited, self.company, self.waits, self.faults, self.taken = 0, 0, 0, 0, 0, 0

    def fails(self, name, number):
        failed = number in self.script.get(name, ())
        self.faults += failed and name != "waits_lose"
        return failed

    def run(self, store, task):
        """What a task leaves, and how many reads of the disk its bytes take."""
        number, phase, place = task
        job = next(job for job in store.jobs.values() if job.number == number)
        run, _, data = tasks.run_of(store, job, phase, place)
        left = work(run, data)
        self.ran.setdefault((run.execute, said(run, data)), left)
        return left, sum(1 for body in [item.body for item in job.reads(phase, place)] + [body for _, body in run.assets] if body)

    def start(self, store, task):
        number, self.starts = self.starts, self.starts + 1
        left, reads = self.run(store, task)
        if self.fails("starts_fail", number):
            return "SpawnFault"
        store.calls += reads
        delays = self.script.get("waits", ())
        self.live.append((task, self.waited + (delays[number] if number < len(delays) else 0), left))
        return None

    def wait(self):
        """The child that has ended, or the answer of a turn without one."""
        number, self.waited = self.waited, self.waited + 1
        for name, answer in (("waits_fail", "SpawnFault"), ("waits_lose", "Memory")):
            if self.fails(name, number):
                self.live.pop(0)
                return answer
        for k, child in enumerate(self.live):
            if child[1] <= number:
                self.company += len(self.live)
                return self.live.pop(k)
        self.waits += 1
        return "NotYet"

    def take(self, store, child):
        """`unread` in the script: the outcomes of which a read fails, by their number, and how many pieces were written before."""
        task, _, left = child
        number, self.taken = self.taken, self.taken + 1
        job, phase, place = next(job for job in store.jobs.values() if job.number == task[0]), *task[1:]
        if number in self.script.get("unread", {}):
            self.faults += 1
            written = self.script["unread"][number]
            store.calls += 2 * written + (1 if written else 0)
            return "SpawnFault"
        if not tasks.commit(store, job, phase, place, lambda run, data: left):
            return "Full"
        bodies = [] if left.status or len(left.out) > tasks.LARGEST_OUTPUT else [tasks.read_record(data).body for _, data in left.files] or [left.out]
        store.calls += 2 * sum(-(-len(body) // 65_536) for body in bodies) + 6
        return f"Committed(Task {{ job: {task[0]}, phase: {phase}, place: {place} }})"

    def close(self, store, job):
        if not store.close(job, False):
            return "Full"
        store.calls += 2 * sum(-(-len(job.text("l", kind)) // 65_536) for kind in ("err", "fail", "in", "status", "out")) + 6
        return f"Closed({job.number})"

    def turn(self, store):
        """What one turn does, by the page of mt_runner."""
        jobs = sorted(store.jobs.values(), key=lambda job: job.number)
        ready = [(job.number, *place) for job in jobs for place in job.ready()]
        self.live = [child for child in self.live if child[0] in ready]
        waiting = next((job for job in jobs if job.waits()), None)
        if waiting is not None:
            return self.close(store, waiting)
        busy = {child[0] for child in self.live}
        for task in ready:
            if len(self.live) < self.slots and task not in busy:
                failed = self.start(store, task)
                if failed:
                    return failed
        if not self.live:
            return "Idle"
        found = self.wait()
        return found if isinstance(found, str) else self.take(store, found)


class Table:
    """Rows, those of cases in their place once it is known what was run."""

    def __init__(self):
        self.rows, self.place, self.kind = [], None, "told"

    def note(self, text):
        self.rows += ["", f"# {text}"]

    def row(self, row, answer=None):
        self.rows.append(row if answer is None else f"{row:<48} => {answer}")

    # The account.
    def disk(self, limit=1 << 26, file=400_000, calls=4_000):
        self.flush()
        self.store, self.ran = Logged(limit=limit), {}
        self.store.calls, self.store.moment = 0, 0
        self.row(f"disk {file} {calls}")
        self.open(limit)

    def open(self, limit):
        self.store.limit = limit
        self.row(f"open {limit}", self.stands())

    def stands(self):
        return f"log {self.store.used}, position {self.store.count}"

    def ask(self, head, body=b""):
        self.store.ask((head + f" HTTP/1.1\r\nContent-Type: text/plain\r\nContent-Length: {len(body)}\r\n\r\n").encode() + body)

    def add(self, body, command, *times):
        self.row(" ".join(["add", word(body), word(command), *times]), f"Added; {self.stands()}")

    def put(self, name, body):
        place = self.store.used - 1 if body else 0
        self.ask(f"PUT /l/stor/{name}", body)
        self.add(body, self.store.command[:-16] + struct.pack(">QQ", place, len(body)))

    def job(self, *phases):
        """A job of these phases, each a command, the number of reducers where it reduces, and its assets."""
        said = []
        for exec, *rest in phases:
            count, assets = rest[0] if rest else None, rest[1] if len(rest) > 1 else []
            said.append({"exec": exec, "assets": [f"/l/stor/{name}" for name in assets]} | ({"type": "reduce", "count": count} if count else {}))
        self.number = self.store.count * 4_096
        self.ask("POST /l/jobs", json.dumps({"phases": said}).encode())
        self.add(b"", self.store.command)

    def at(self, tail):
        return f"/l/jobs/{identifier(2, self.number)}{tail}"

    def lines(self, *names, times=None):
        self.ask("POST " + self.at("/live/in"), "".join(f"/l/stor/{name}\n" for name in names * (times or 1)).encode())
        command = self.store.command
        if times is None:
            self.add(b"", command)
        else:
            self.add(b"", command[:21], word(command[21:21 + (len(command) - 21) // times]), str(times))

    def end(self):
        self.ask("POST " + self.at("/live/in/end"))
        self.add(b"", struct.pack(">BQQ", 7, self.store.moment, self.number))

    def cancel(self):
        """By a command of its own, which leaves no texts."""
        job = next(job for job in self.store.jobs.values() if job.number == self.number)
        job.cancelled, job.done = True, self.store.moment
        self.store.used, self.store.count = self.store.used + 21 + 17, self.store.count + 1
        self.add(b"", struct.pack(">BQQ", 10, self.store.moment, self.number))

    # Turns.
    def crew(self, slots, **script):
        for name in ("waits", "starts_fail", "waits_fail", "waits_lose", "reads_fail"):
            if name in script:
                self.row(" ".join(["script", name.replace("_", "-"), *map(str, script[name])]))
        self.place = len(self.rows) if self.place is None else self.place
        self.row(f"crew {self.kind} {slots}")
        self.team = Crew(slots, self.ran, **script)

    def flush(self):
        """The rows of what was run stand before the first crew of a disk."""
        if self.place is not None:
            self.rows[self.place:self.place] = [case_row(exec, reads, left) for (exec, reads), left in self.ran.items()]
        self.place = None

    def turn(self, times=1):
        for _ in range(times):
            self.last = self.team.turn(self.store)
            self.row(f"turn {self.store.moment}", f"{self.last}; {self.stands()}")

    def drain(self, most=1_000_000):
        for _ in range(most):
            self.last = self.team.turn(self.store)
            if not self.last.startswith(("Closed", "Committed")):
                break
        self.row(f"drain {most} {self.store.moment}", f"{self.last}; {self.stands()}")

    def counts(self):
        team = self.team
        self.row("counts", f"live {len(team.live)}, starts {team.starts}, company {team.company}, waits {team.waits}, faults {team.faults}")

    def count_calls(self):
        self.store.calls = 0
        self.row("fail")

    def calls(self):
        self.row("calls", str(self.store.calls))

    # What stands.
    def object(self, name, body):
        self.row(f"object {name}", measured(body))

    def texts(self, *names):
        job = next(job for job in self.store.jobs.values() if job.number == self.number)
        for name in names or ("out",):
            self.object(self.at(f"/{name}.txt"), job.text("l", name))

    def outputs(self, phase=None):
        job = next(job for job in self.store.jobs.values() if job.number == self.number)
        for item in job.feed(len(job.phases) if phase is None else phase + 1):
            self.object(printed("l", item.name), item.body)

    def tasks(self):
        job = next(job for job in self.store.jobs.values() if job.number == self.number)
        self.row(f"tasks {self.number}")
        for entry in job.trace:
            end = f"outputs {len(entry.items)}" if entry.failure is None else "{} {} {}".format(entry.failure[0], entry.failure[1], shown(entry.failure[2]))
            self.row(f"    phase {entry.phase} place {entry.place} at {entry.position}: {end}")


def maps(t):
    t.note("Two map phases, while the input goes on and behind its end.")
    t.disk()
    t.put("a", b"hello")
    t.job(("cat",), ("cat",))
    t.lines("a")
    t.crew(4)
    t.turn()
    t.end()
    t.turn(2)
    t.tasks()
    t.texts("out", "in", "err", "fail")
    t.outputs()
    t.turn()
    t.counts()


def reduces(t):
    t.note("Three children at once, of which the last one ends first; two reducers read what they left in the order of the commits.")
    t.disk()
    for name, body in (("a", b"1"), ("b", b"2"), ("c", b"3")):
        t.put(name, body)
    t.job(("cat",), ("cat", 2))
    t.lines("a", "b", "c")
    t.crew(4, waits=[1, 1, 0])
    t.turn()
    t.counts()
    t.end()
    for _ in range(4):
        t.turn()
        t.counts()
    t.turn(2)
    t.tasks()
    t.outputs()


def inputs(t):
    t.note("An object twice, and a line without an object.")
    t.disk()
    t.put("a", b"1")
    t.job(("cat",))
    t.lines("a", "gone", "a")
    t.crew(4)
    t.turn()
    t.counts()
    t.end()
    for _ in range(2):
        t.turn()
        t.counts()
    t.texts("out", "fail", "err", "in")
    t.note("Reducers without an input.")
    t.disk()
    t.job(("wc", 3))
    t.end()
    t.crew(4)
    t.turn(5)
    t.counts()
    t.outputs()


def failures(t):
    t.note("A command that fails: no piece is written.")
    t.disk()
    t.put("a", b"1")
    t.job(("fail 3",))
    t.lines("a")
    t.end()
    t.crew(4)
    t.count_calls()
    t.turn()
    t.calls()
    t.tasks()
    t.turn()
    t.texts("out", "fail", "err")


def splits(t):
    t.note("Lines are shared out among three reducers. The first child is slow: what the second left is read first.")
    shared(t, 3)
    t.note("The same lines, shared out among eight where three reducers read: an output for a number above theirs goes to that of its remainder by three.")
    shared(t, 8)


def shared(t, count):
    t.disk()
    t.put("x", b"a\nb\n")
    t.put("y", b"b\nc\n")
    t.job((f"msplit {count}",), ("cat", 3))
    t.lines("x", "y")
    t.end()
    t.crew(4, waits=[1, 0])
    t.turn(2)
    t.tasks()
    t.outputs(0)
    t.turn(4)
    t.outputs()


def waiting(t):
    t.note("Children that don't end are waited for in vain; those of a job that is cancelled go at the next turn.")
    t.disk()
    t.put("a", b"1")
    t.job(("cat",))
    t.lines("a", "a")
    t.crew(4, waits=[100, 100])
    t.turn(3)
    t.counts()
    t.cancel()
    t.turn()
    t.counts()
    t.note("Others are ended by hand, and started anew.")
    t.job(("cat",))
    t.lines("a", "a")
    t.turn()
    t.counts()
    t.row("stop")
    t.team.live = []
    t.counts()
    t.drain()
    t.counts()


def limits(t):
    t.note("A byte less than a commit needs, twice: not a byte is written, and the disk is not called but to read the input. With the byte it is committed.")
    t.disk()
    t.put("a", b"hello")
    t.job(("mpipe /l/stor/one /l/stor/two",))
    t.lines("a")
    records = [tasks.Record("emit", tasks.read_text_path("l", f"/l/stor/{name}"), None, b"hello") for name in ("one", "two")]
    size, pieces = tasks.commit_size(t.store, records, None)
    grown = t.store.used + pieces + 21 + size
    t.open(grown - 1)
    t.crew(4)
    for _ in range(2):
        t.count_calls()
        t.turn()
        t.calls()
        t.counts()
    t.open(grown)
    t.count_calls()
    t.turn()
    t.calls()
    t.object("/l/stor/two", b"hello")
    t.note("The same of a job's end.")
    t.open(1 << 26)
    t.end()
    job = t.store.jobs[identifier(2, t.number).encode()]
    job.done = 0
    size = 21 + 98 + sum(pieces_size(len(job.text("l", kind))) for kind in ("err", "fail", "in", "status", "out"))
    job.done = None
    t.open(t.store.used + size - 1)
    t.count_calls()
    t.turn()
    t.calls()
    t.open(t.store.used + size)
    t.count_calls()
    t.turn()
    t.calls()
    t.texts("out")


def faults(t):
    t.note("Three starts that fail: each is counted, and leaves all as it was.")
    t.disk()
    t.put("a", b"1")
    t.job(("cat",))
    t.lines("a")
    t.crew(4, starts_fail=[0, 1, 2])
    for _ in range(4):
        t.turn()
        t.counts()
    t.note("A second start that fails: the first child lives, and is waited for in the next turn.")
    t.lines("a", "a")
    t.crew(4, starts_fail=[1])
    t.turn()
    t.counts()
    t.drain()
    t.counts()
    t.note("A wait that fails, and one out of memory: the first child is gone, and its task is ready again.")
    for name in ("waits_fail", "waits_lose"):
        t.lines("a", "a")
        t.crew(4, **{name: [0]})
        t.turn()
        t.counts()
        t.drain()
        t.counts()


def unread(t):
    t.note("A read that fails while what a child left is judged: nothing is written, and company has risen. The next turn commits it.")
    t.disk(file=900_000)
    t.put("a", b"hello")
    t.job(("mpipe /l/stor/one",))
    t.lines("a")
    t.crew(4, reads_fail=[0], unread={0: 0})
    t.count_calls()
    t.turn()
    t.calls()
    t.counts()
    t.turn()
    t.counts()
    t.note("One that fails behind the first piece: the log is as it was.")
    t.job(("fill 100000",))
    t.lines("a")
    t.crew(4, reads_fail=[1], unread={0: 1})
    t.count_calls()
    t.turn()
    t.calls()
    t.counts()
    t.turn()
    t.counts()
    t.outputs()


def slots(t):
    t.note("1,000 inputs and four slots: one turn starts four and takes one.")
    t.disk()
    t.put("a", b"hello")
    t.job(("cat",))
    t.lines("a", times=1_000)
    t.crew(4)
    t.turn()
    t.counts()
    t.note("One slot.")
    t.crew(1)
    t.turn()
    t.counts()
    t.note("So many turns and no more.")
    t.drain(20)
    t.counts()
    t.note("Two jobs: the task of the first comes first, and the end of one that waits before all tasks.")
    t.disk()
    t.put("a", b"hello")
    t.job(("cat",))
    t.lines("a")
    first = t.number
    t.job(("cat",))
    t.end()
    second, t.number = t.number, first
    t.crew(1)
    t.turn(3)
    t.end()
    t.turn()


def assets(t):
    t.note("What commands read: an empty input, an empty asset between two others, and assets of the second phase alone.")
    t.disk()
    for name, body in (("a", b"hello"), ("none", b""), ("one", b"1"), ("two", b"22")):
        t.put(name, body)
    t.job(("saw", None, ["one", "none", "two"]), ("saw", None, ["two"]), ("saw", 2, ["none", "one"]))
    t.lines("none", "a")
    t.end()
    t.crew(4)
    t.turn(7)
    t.tasks()
    for phase in range(3):
        t.outputs(phase)


def stops(t):
    t.note("Each call of the disk of a turn with two outputs fails in turn: one reads, four write the outputs, two the command, one a closed gate, then a sync, the open gate, and the last sync. A crash leaves nothing, zeros, ones, half or all of each call since the last sync.")
    t.disk()
    t.put("a", b"hello")
    t.job(("mpipe /l/stor/one /l/stor/two",))
    t.lines("a")
    before, place = t.store.count, t.stands()
    t.crew(1)
    t.team.run(t.store, (t.number, 0, 0))
    for call in range(11):
        answer = f"Disk; {place}" if call == 0 else "Disk; closed"
        unsynced = call - 1 if 1 <= call <= 8 else 1 if call == 10 else 0
        for pick in PICKS if unsynced else PICKS[:1]:
            left = before + (call == 10 and pick in ("ones", "whole"))
            t.row(" ".join([f"stopped {t.kind} 1 {t.store.limit} {call}", *[pick] * unsynced]), f"{answer}; left {left}")
    t.turn()
    t.row(f"stopped {t.kind} 1 {t.store.limit} 11", f"Idle; {t.stands()}; left {t.store.count}")


def sizes(t):
    t.note("As many bytes as an output may have, and one more, of which not one is read.")
    t.disk(file=18_000_000)
    t.put("a", b"hello")
    t.job(("fill 16777216",))
    t.lines("a")
    t.crew(4)
    t.turn()
    t.outputs()
    t.job(("fill 16777217",))
    t.lines("a")
    t.crew(4)
    t.turn()
    t.tasks()


def idle(t):
    t.note("2,000 committed places, and then a million turns while the input is open: each is idle, and makes no call of the disk.")
    t.disk(file=1_000_000, calls=20_000)
    t.put("a", b"hello")
    t.job(("cat",))
    t.lines("a", times=2_000)
    t.crew(4)
    t.drain()
    t.counts()
    t.count_calls()
    t.row("idle 1000000", "1000000")
    t.calls()
    t.counts()


def main():
    table = Table()
    for kind in ("told", "untold"):
        table.kind = kind
        table.note(f"A spawner that tells {'what its children end in' if kind == 'told' else 'nothing'}.")
        for part in (maps, reduces, inputs, failures, splits, waiting, limits, faults, unread, slots, assets, stops, sizes, idle):
            part(table)
    table.flush()
    print("\n".join(table.rows))


main()
