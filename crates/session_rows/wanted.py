#!/usr/bin/env python3
"""Prints the wanted table of session_rows: `python3 wanted.py > stdout`, and stdin by docs/developer/CONTRIBUTING.md.

Replies are those of tests/model.py, commits those of tests/turns.py, by children that are counted here; logs are written here by docs/proof/FORMATS.md with Python's `struct` and `hashlib`, and statuses
and counts of calls stand below by hand. Nothing here knows the code.
"""
import hashlib
import json
import pathlib
import struct
import sys

sys.path.insert(0, str(pathlib.Path(__file__).resolve().parents[2] / "tests"))
import turns as tasks  # noqa: E402
from model import ERRORS, PHRASES, Store, http_date, identifier, pieces_size  # noqa: E402

# The line of a record that is not a command.
FOREIGN = "unknown record at byte {} of the log (written by another version?)"
SESSION = "session --login l --store s --at 0"
SERVE = "serve --login l --store s --at 0 --listen x --connections"
USAGE = b"usage: mantad COMMAND [OPTIONS]\n"
PLAIN = {9: "\\t", 10: "\\n", 13: "\\r", 92: "\\x5c"}
OPENING = 9  # calls of the disk that make a log and open it
# Calls of the disk that open a log of less than 16,384 bytes with records: a sync of each file, the length and the byte of head, the
# length of the log and a read of it, and one of the window over which its records are read again.
REOPENING = 8


# Rows.
def escaped(data, blank=" "):
    out = "".join(PLAIN.get(b, chr(b) if 32 <= b <= 126 else f"\\x{b:02x}") for b in data)
    return out if blank == " " else out.replace(" ", blank)


def shown(data):
    out = escaped(data)
    return out[:-1] + "\\s" if out.endswith(" ") else out


def word(data):
    return escaped(data, "\\s") if data else "\\e"


def named(mark, data):
    return f"    {mark} {shown(data)}".rstrip(" ") if data else f"    {mark}"


def answered(row, answer):
    print(f"{row:<48} => {answer}")


def print_lines(data):
    for line in data.splitlines(keepends=True) if data else []:
        print(named("<", line[:-2]) if line.endswith(b"\r\n") else named("<|", line))


# Messages.
def message(head, body=None):
    """A message of these lines, with the length of its body where it has one."""
    lines = head.split("\n") + ([f"Content-Length: {len(body)}"] if body is not None else [])
    return "".join(line + "\r\n" for line in lines + [""]).encode("latin-1") + (body or b"")


def put(name, body=b"hello", *fields):
    return message("\n".join([f"PUT /l/stor/{name} HTTP/1.1", "Content-Type: text/plain", *fields]), body)


def get(name, *fields):
    return message("\n".join([f"GET /l/stor/{name} HTTP/1.1", *fields]))


def delete(name):
    return message(f"DELETE /l/stor/{name} HTTP/1.1")


def refusal(code, position, moment=0):
    """The reply behind which no message is read. It has its body, whatever the method."""
    status, words = ERRORS[code]
    data = json.dumps({"code": code, "message": words}, separators=(",", ":")).encode()
    fields = ["connection: close", f"content-length: {len(data)}", "content-type: application/json", f"date: {http_date(moment)}", f"x-marlin-position: {position}"]
    return "".join(line + "\r\n" for line in [f"HTTP/1.1 {status} {PHRASES[status]}", *fields, ""]).encode() + data


INTERIM = b"HTTP/1.1 100 Continue\r\n\r\n"


# Logs, by docs/proof/FORMATS.md.
def record(payload):
    return b"\x01" + struct.pack(">I", len(payload)) + hashlib.md5(payload).digest() + payload


def put_command(name, content_type, place, length, moment=0, area=0):
    return struct.pack(">BQ", 1, moment) + path_of(name, area) + struct.pack(">H", len(content_type)) + content_type + struct.pack(">QQ", place, length)


def path_of(name, area=0):
    return struct.pack(">BH", area, 1) + struct.pack(">H", len(name)) + name


def directory_command(name, moment=0, area=0):
    return struct.pack(">BQ", 2, moment) + path_of(name, area)


def delete_command(name, moment=0):
    return struct.pack(">BQ", 4, moment) + path_of(name)


# A job of one phase that maps `cat`.
JOB_COMMAND = struct.pack(">BQ", 5, 0) + struct.pack(">I", 0) + b"\1" + b"\0" + struct.pack(">I", 3) + b"cat" + b"\0\0"


def log(*payloads):
    return b"MTLOG002" + b"".join(record(payload) for payload in payloads) + b"\0"


def log_of_hello(name=b"a"):
    return log(b"\0hello", put_command(name, b"text/plain", 8, 5))


def echo(data, otherwise):
    return tasks.leaves(data, status=7 if otherwise else 0)


class Crew:
    """Children that write what they read: each with its task, the wait that finds its end, and whether it ends the other way."""

    def __init__(self, slots=4, **script):
        self.slots, self.script, self.live = slots, script, []
        self.starts, self.waited, self.company, self.waits, self.faults, self.reads = 0, 0, 0, 0, 0, 0

    def fails(self, name, number):
        if number in self.script.get(name, ()):
            self.faults += 1
            return True
        return False

    def start(self, task):
        number, self.starts = self.starts, self.starts + 1
        if self.fails("starts_fail", number):
            return False
        delays = self.script.get("waits", ())
        due = self.waited + (delays[number] if number < len(delays) else 0)
        self.live.append((task, due, number in self.script.get("otherwise", ())))
        return True

    def wait(self):
        """The child that has ended, or the answer of a turn without one."""
        number, self.waited = self.waited, self.waited + 1
        if self.live and self.fails("waits_fail", number):
            self.live.pop(0)
            return "SpawnFault"
        for k, child in enumerate(self.live):
            if child[1] <= number:
                self.company += len(self.live)
                return self.live.pop(k)
        self.waits += 1
        return "NotYet"

    def leaves(self, data, otherwise):
        """What a child leaves that read this."""
        return echo(data, otherwise)

    def take(self, store, child):
        (number, phase, place), _, otherwise = child
        job = next(job for job in store.jobs.values() if job.number == number)
        left = self.leaves(tasks.run_of(store, job, phase, place)[2], otherwise)
        if not otherwise:
            for _ in range(-(-len(left.out) // 65_536)):  # a read a piece, where there is room for all
                self.reads += 1
                if self.fails("reads_fail", self.reads - 1):
                    return "SpawnFault"
        return "Committed" if tasks.commit(store, job, phase, place, lambda run, data: left) else "Full"

    def turn(self, store):
        """What one turn does, by the page of mt_runner."""
        jobs = sorted(store.jobs.values(), key=lambda job: job.number)
        ready = [(job.number, *place) for job in jobs for place in job.ready()]
        self.live = [child for child in self.live if child[0] in ready]
        waiting = next((job for job in jobs if job.waits()), None)
        if waiting is not None:
            return "Closed" if store.close(waiting, False) else "Full"
        for task in ready:
            if len(self.live) < self.slots and all(child[0] != task for child in self.live) and not self.start(task):
                return "SpawnFault"
        if not self.live:
            return "Idle"
        found = self.wait()
        return found if isinstance(found, str) else self.take(store, found)

    def drain(self, store, tick):
        last = "Closed"
        while last in ("Closed", "Committed"):
            tick()
            last = self.turn(store)
        return last


class Table:
    def __init__(self):
        self.store, self.crew, self.clock = Store(), Crew(), []

    def note(self, text):
        print(f"\n# {text}")

    def new(self, limit=1 << 30):
        self.store = Store(limit=limit)
        print("new")

    def given(self, *messages):
        """The requests from here on."""
        print("requests")
        for one in messages:
            head, found, body = one.partition(b"\r\n\r\n")
            lines = head.split(b"\r\n") if found else one.split(b"\r\n")[:-1]
            rest = body if found else one.split(b"\r\n")[-1]
            for line in lines + ([b""] if found else []):
                print("> " + shown(line) if line else ">")
            if rest:
                print(">| " + escaped(rest))

    def replies(self, *messages):
        return b"".join(self.store.ask(one) for one in messages)

    def run(self, words, status, out=b"", links=()):
        answered(f"run {words}", f"status {status}")
        print_lines(out)
        for number, said in enumerate(links, 1):
            print(f"    link {number}")
            print_lines(said)

    def session(self, *messages, words=SESSION):
        """Requests that are all answered, by a session of status 0."""
        self.given(*messages)
        self.run(words, 0, self.replies(*messages))

    def asked_at(self, *pairs):
        """What is answered to messages, each at its own moment."""
        said = b""
        for moment, one in pairs:
            self.store.moment = moment
            said += self.store.ask(one)
        self.store.moment = 0
        return said

    def timed(self, *pairs):
        """A session whose clock gives a moment for each message, and the same for the turn behind it."""
        self.given(*(one for _, one in pairs))
        print("moments " + " ".join(f"{moment} {moment}" for moment, _ in pairs))
        self.run(SESSION, 0, self.asked_at(*pairs))

    # Sessions and serves with jobs.
    def script(self, slots=4, **script):
        """What becomes of the children of the next run."""
        self.crew = Crew(slots, **script)
        for name, numbers in script.items():
            print(" ".join(["children", name.replace("_", "-"), *map(str, numbers)]))

    def moments(self, *moments):
        self.clock = list(moments)
        if moments:
            print("moments " + " ".join(map(str, moments)))

    def tick(self):
        """The next moment of the clock: the last of its list is given from then on."""
        if self.clock:
            self.store.moment = self.clock[0]
            self.clock = self.clock[1:] or self.clock

    def played(self, messages):
        """What is said to messages, each with a turn behind it; and how it ended."""
        said = b""
        for one in messages:
            self.tick()
            said += self.store.ask(one)
            self.tick()
            last = self.crew.turn(self.store)
            if last == "Full":
                return said, last
        return said, "Ended"

    def worked(self, *messages, words=SESSION, limit=None):
        """A session with jobs: its replies, and the status by its last turn."""
        self.given(*messages)
        self.store.limit = limit or 1 << 30
        said, last = self.played(messages)
        if last == "Ended":
            last = self.crew.drain(self.store, self.tick)
        self.run(words + (f" --log-limit {limit}" if limit else ""), STATUSES[last], said)
        self.counts()

    def counts(self):
        crew = self.crew
        answered("counts", f"starts {crew.starts}, live 0, company {crew.company}, waits {crew.waits}, faults {crew.faults}")
        self.crew, self.clock, self.store.moment = Crew(), [], 0

    def refused(self, bad, code, *before):
        """Requests that are answered, and then bytes that are no message."""
        self.given(*before, bad)
        out = self.replies(*before)
        self.run(SESSION, 12, out + refusal(code, self.store.count))

    def calls(self, count):
        answered("calls", count)

    def files(self, one, head=b"\x01", two=b""):
        print("files")
        for name, data in (("head", head), ("one", one), ("two", two)):
            print(named(name, data))

    def holds(self, head, one, two=b""):
        print(f"store {word(head)} {word(one)} {word(two)}")

    def stops(self, counts, told=0, opening=OPENING, words=SESSION):
        """A run of commands that take so many calls each: the last but one opens the gate, the last syncs. One of "reads" adds none, and
        what stands in a list is of a turn: its reads, and its command, of which no reply tells."""
        print(f"stops {words}".ljust(48).rstrip())
        call, said = 0, "none"
        for _ in range(opening):
            print(f"    call {call}: status 5, told none, left" + f" {told}" * 5)
            call += 1
        for count in counts:
            by_turn = isinstance(count, list)
            reads, writes = count if by_turn else (1, 0) if count == "reads" else (0, count)
            for k in range(reads + writes):
                # Of a gate that was not synced a crash leaves the byte 1 where it leaves ones or the whole.
                left = [told, told, told + 1, told, told + 1] if writes and k >= reads + writes - 2 else [told] * 5
                print(f"    call {call}: status 5, told {said}, left " + " ".join(map(str, left)))
                call += 1
            told += 1 if writes else 0
            said = said if by_turn else told


def objects(t):
    t.note("A put of five bytes, and then a GET of them. Making a log and opening it are nine calls of the disk, a put of one piece is eight, a GET of it one.")
    t.new()
    t.session(put("a"), get("a"))
    t.calls(OPENING + 8 + 1)
    t.note("The log of that put: MTLOG002, the piece and the command, each behind the byte 1, its length and its MD5, and a gate.")
    t.files(log_of_hello())
    t.note("A session over what it left gets the object; one more puts it anew, with nothing in it.")
    t.session(get("a"))
    t.session(put("a", b""), get("a"), get("a", "Range: bytes=0-0"))
    t.note("A body of two pieces, a part of it over their border, and the store opened again.")
    t.new()
    body = bytes(range(97, 123)) * 2521
    t.session(put("large", body), get("large", "Range: bytes=65530-65545"))
    t.session(get("large", "Range: bytes=-3"))
    t.note("Directories, a page, a link, a delete, conditions, marks; what is not built yet is said.")
    t.new()
    t.session(
        message("PUT /l/stor/d HTTP/1.1\nContent-Type: application/json; type=directory"),
        put("d/a", b"1", "If-None-Match: *"),
        put("d/a", b"2", "If-None-Match: *"),
        put("d/b", b"3", "M-colour: red", "Durability-Level: 3"),
        message("PUT /l/stor/link HTTP/1.1\nContent-Type: application/json; type=link\nLocation: /l/stor/d/b"),
        get("d?limit=1"),
        message("HEAD /l/stor/link HTTP/1.1"),
        delete("d"),
        delete("d/b"),
        get("link"),
        get("d/b"),
        message("GET /l/jobs HTTP/1.1"),
        message("GET /m/stor/a HTTP/1.1"),
        message("HEAD /m/stor/a HTTP/1.1"),
        message("POST /l/stor/a HTTP/1.1", b"x"),
    )
    t.session(get("d"), get(""), get("link", "If-Modified-Since: Thu, 01 Jan 1970 00:00:00 GMT"))


DIRECTORY = "Content-Type: application/json; type=directory"
LINK = "Content-Type: application/json; type=link"
TAG = '"00000001-0000-8000-8000-00000000{}"'


def made(kind, name, *fields):
    return message("\n".join([f"PUT /l/stor{name} HTTP/1.1", kind, *fields]))


def routes(t):
    t.note("What is above a put, or stands at its path.")
    t.new()
    t.session(put("x/y"))
    t.files(log())
    t.session(put("a"), put("a/b"), made(DIRECTORY, "/d"), put("d"), made(DIRECTORY, "/a"), made(DIRECTORY, "/d"), message("PUT /l/stor HTTP/1.1", b"hello"))
    t.note("Pages.")
    t.new()
    t.session(*(put(name, b"") for name in "bac"))
    t.session(*(message(f"GET /l/stor?{query} HTTP/1.1") for query in ("limit=2", "limit=2&marker=b", "limit=0", "limit=1025")))
    t.note("A directory is deleted once it is empty.")
    t.new()
    t.session(made(DIRECTORY, "/d"), put("d/x"), delete("d"), delete("d/x"), delete("d"), get("d"))
    t.note("A link keeps what its source held; and a link that can't be made.")
    t.new()
    t.session(put("a"), made(LINK, "/b", "Location: /l/stor/a"), put("a", b"bye"), delete("a"), get("b"))
    t.session(made(LINK, "/c", "Location: /l/stor/a"), made(LINK, "/c", "Location: /l/stor"), made(LINK, "/c"))
    t.note("Puts of two writers, and a reader that has it.")
    t.new()
    t.session(put("a", b"1", "If-None-Match: *"), put("a", b"2", "If-None-Match: *"), put("a", b"3", f"If-Match: {TAG.format('0000')}"), put("a", b"4", f"If-Match: {TAG.format('0000')}"), get("a", f"If-None-Match: {TAG.format('1000')}"))
    t.session(get("a", "If-Modified-Since: Thu, 01 Jan 1970 00:00:00 GMT"), get("a", "If-Modified-Since: yesterday"), put("a", b"5", "If-Unmodified-Since: Thu, 01 Jan 1970 00:00:00 GMT"))
    t.session(message("DELETE /l/stor/a HTTP/1.1\nIf-None-Match: *"))
    t.note("Ranges.")
    t.new()
    t.session(put("a"), *(get("a", f"Range: bytes={part}") for part in ("5-", "-2", "1-100", "0-1,3-4")))
    t.note("A digest, a login, a method, an area and a path that are refused.")
    t.new()
    t.session(put("a", b"hello", "Content-MD5: 1B2M2Y8AsgTpgAmY7PhCfg=="), message("GET /m/stor/a HTTP/1.1"), message("PATCH /l/stor/a HTTP/1.1"), message("GET /l/other HTTP/1.1"), message("GET /l HTTP/1.1"))


def words(t):
    t.note("Words that are not of the grammar: one line, and no call of the disk.")
    t.new()
    t.given(put("a"), get("a"))
    for wrong in (
        "session --login l", "", "serve --login l --store s", "sessions --login l --store s", "session --store s", "session --login l --store \\e",
        "session --login \\e --store s", "session --login l/ --store s", "session --login l --login l --store s",
        "session --login l --store s --at 253402300800", "session --login l --store s --at +5", "session --login l --store s --at",
        "session --login l --store s --log-limit 8", "session --login l --store s --log-limit 68719476737",
        "session --login l --store s --log-limit 9 --log-limit 9", "session --login l --store s --slots 0", "session --login l --store s --slots 65",
        "session --login l --store s --connections 1 --listen x", "serve --login l --store s --connections 0 --listen x",
        "serve --login l --store s --connections 1000001 --listen x", "serve --login l --store s --connections 1 --listen \\e",
    ):
        t.run(wrong, 1, USAGE)
        t.calls(0)
    t.note("The same where the line can't be written.")
    print("fail writes 0")
    t.run("session --login l", 1)
    t.calls(0)
    t.files(b"", head=b"")
    t.note("Words of the grammar.")
    for right in (
        "session --log-limit 9 --store s --login l", "session --log-limit 068719476736 --store s --login l",
        "session --at 0253402300799 --store s --login Some_login-1", "session --store --at --login l", "session --login l --store s --slots 64 --work w --helper h",
    ):
        t.new()
        t.given()
        t.run(right, 0)


def stores(t):
    hello = log_of_hello()
    t.note("What a disk holds at opening: nothing, less than a log, Head 7, Head 2 over one log or a part of a second, and a log in Two.")
    for head, one, two, there, after in (
        (b"", b"", b"", False, (b"\x01", log(), b"")), (b"", b"MTLOG", b"12345678", False, (b"\x01", log(), b"12345678")),
        (b"\x07", hello, b"", True, None), (b"\x02", hello, b"", True, (b"\x01", hello, b"")), (b"\x02", hello, b"MTLOG002", True, (b"\x01", hello, b"MTLOG002")),
        (b"\x02", b"", hello, True, None),
    ):
        t.store = Store()
        if there:
            t.store.ask(put("a"))
        t.holds(head, one, two)
        t.session(get("a"))
        head, one, two = after or (head, one, two)
        t.files(one, head, two)
    t.note("A log with a job of one phase opens.")
    t.store = Store()
    t.store.accept(JOB_COMMAND)
    t.holds(b"\x01", log(JOB_COMMAND))
    t.session(put("a"), get("a"))
    t.files(log(JOB_COMMAND, b"\0hello", put_command(b"a", b"text/plain", 8 + 21 + len(JOB_COMMAND), 5)))
    t.note("Stores that are refused are left as they are: no log, a second log of another kind, an old log, and payloads that are no command.")
    bad = [
        (b"MTLOG002", "the log file is not a mantad log"), (b"MTLOG001\0", "log version MTLOG001 is not supported"), (log(b"\xff"), FOREIGN.format(8)), (log(b""), FOREIGN.format(8)),
        # A put whose body stands in it, one whose body is nowhere, and one whose moment is too large.
        (log(put_command(b"a", b"text/plain", 8, 5)[:-16] + struct.pack(">I", 5) + b"hello"), FOREIGN.format(8)),
        (log(put_command(b"a", b"text/plain", 8, 5)), FOREIGN.format(8)),
        (log(put_command(b"a", b"", 0, 0, moment=253_402_300_800)), FOREIGN.format(8)),
        (log(b"\0hello", put_command(b"a", b"", 8, 6)), FOREIGN.format(35)),
        (log(b"\0hello", put_command(b"..", b"", 8, 5)), FOREIGN.format(35)),
        # A delete of nothing, a directory for the second time, one in the area of jobs, a byte too many, and an end of the input of a job that isn't there.
        (log(delete_command(b"a")), FOREIGN.format(8)),
        (log(directory_command(b"a"), directory_command(b"a")), FOREIGN.format(8 + 21 + len(directory_command(b'a')))),
        (log(directory_command(b"a", area=2)), FOREIGN.format(8)),
        (log(directory_command(b"a") + b"\0"), FOREIGN.format(8)),
        (log(struct.pack(">BQQ", 7, 0, 0)), FOREIGN.format(8)),
    ]
    broken = hello.replace(b"hello", b"hellp")
    kept, computed = hashlib.md5(b"\0hello").hexdigest(), hashlib.md5(b"\0hellp").hexdigest()
    bad += [(broken, f"log damaged at byte 8: stored MD5 {kept}, computed {computed}"), (hello[:-1], f"log truncated at byte {len(hello) - 1}: 1 bytes expected, 0 left"), (hello[:40], "log truncated at byte 35: 21 bytes expected, 5 left")]
    t.given(put("a"), get("a"))
    for one, why in bad:
        t.holds(b"\x01", one)
        t.run(SESSION, 2, f"mantad: {why}\n".encode())
        t.files(one)
    t.holds(b"\x02", hello, b"MTLOG003\0")
    t.run(SESSION, 2, b"mantad: the log file is not a mantad log\n")
    t.files(hello, b"\x02", b"MTLOG003\0")
    t.note("The same where the line can't be written, and where the disk fails: nothing is written then.")
    t.holds(b"\x01", b"MTLOG002")
    print("fail writes 0")
    t.run(SESSION, 2)
    t.files(b"MTLOG002")
    print("fail disk 3")
    t.run(SESSION, 5)
    t.files(b"MTLOG002")
    t.note("A serve over such a store takes no link.")
    t.run(f"{SERVE} 1", 2, b"mantad: the log file is not a mantad log\n")


def limits(t):
    whole = len(log_of_hello())
    t.note("The limit of the log: a put that would pass it is refused, and what has room of its body stays.")
    for limit in (whole - 1, whole, 35, 36):
        t.new(limit)
        t.session(put("a"), get("a"), words=f"{SESSION} --log-limit {limit}")
        if limit >= whole:
            t.files(log_of_hello())
        else:
            t.files(log(b"\0hello") if limit >= 36 else log())


def crashes(t):
    t.note("Each call of the disk fails in turn, and a crash leaves nothing, zeros, ones, half or all of what was not synced: each position that was told of stands.")
    t.new()
    t.given(put("a"))
    t.stops([8])
    t.given(put("a"), delete("a"), put("b", b"hi"))
    t.stops([8, 6, 8])
    t.session(put("a"), delete("a"))
    t.given(message("PUT /l/stor/d HTTP/1.1\nContent-Type: application/json; type=directory"), put("d/x"))
    t.stops([6, 8], told=2, opening=REOPENING)
    t.note("The same of three links at a door, each with one message, of which the second reads: what each reply told of stands before the next link is taken.")
    t.new()
    for one in (put("a"), get("a"), delete("a")):
        t.given(one)
        print("link")
    t.stops([8, "reads", 6], words=f"{SERVE} 3")
    t.note("The source fails; the sink fails, and the put is in the log.")
    t.new()
    t.given(put("a"), get("a"))
    print("fail reads 0")
    t.run(SESSION, 3)
    t.new()
    print("fail writes 0")
    t.run(SESSION, 4)
    t.store.ask(put("a"))
    t.session(get("a"))


def clocks(t):
    t.note("A clock of many moments: each message has that of its own call. Dates of replies, of objects and of pages go by it, and so do 304 and 412.")
    t.new()
    since = "If-Modified-Since: "
    unless = "If-Unmodified-Since: "
    t.timed(
        (86_400, put("a")),
        (86_401, get("a")),
        (90_000, put("b", b"2")),
        (100_000, put("a", b"bye")),
        (100_001, get("a", since + http_date(86_400))),
        (100_002, get("a", since + http_date(99_999))),
        (100_003, get("a", since + http_date(100_000))),
        (100_004, get("b", unless + http_date(89_999))),
        (100_005, get("b", unless + http_date(90_000))),
        (100_006, get("")),
        (100_007, put("b", b"3", unless + http_date(89_999))),
        (100_008, put("b", b"4", unless + http_date(90_000))),
        (100_009, message("HEAD /l/stor/b HTTP/1.1")),
        (99_999, made(DIRECTORY, "/d")),
        (200_000, delete("a")),
        (200_001, get("a")),
        (200_002, get("")),
    )
    t.note("What is refused has the moment of its call; and behind the last of a list a clock gives that one.")
    t.given(get("none"), b"GE(T\r\n\r\n")
    print("moments 300000 300000 300001")
    t.run(SESSION, 12, t.asked_at((300_000, get("none"))) + refusal("BadRequest", t.store.count, 300_001))
    t.given(get("none"), get("none"), get("none"))
    print("moments 300002 300002 300003")
    t.run(SESSION, 0, t.asked_at((300_002, get("none")), (300_003, get("none")), (300_003, get("none"))))
    t.note("The links of a door share one clock, which is asked for each turn of tasks too: behind each message, and in each drain.")
    t.given(put("c"), get("c", since + http_date(400_000)))
    print("link")
    t.given(get("c", since + http_date(400_000)), put("c", b"c"), get("c", since + http_date(400_000)))
    print("link")
    print("moments 400000 0 400001 0 0 400002 0 400003 0 400004")
    t.run(f"{SERVE} 2", 0, links=[
        t.asked_at((400_000, put("c")), (400_001, get("c", since + http_date(400_000)))),
        t.asked_at((400_002, get("c", since + http_date(400_000))), (400_003, put("c", b"c")), (400_004, get("c", since + http_date(400_000)))),
    ])


def ends(t):
    t.note("Ends of a source: none, blank lines, within a head, within a body, and behind a message that closes.")
    t.new()
    t.session()
    t.given(b"\r\n\n\r")
    t.run(SESSION, 0)
    t.given(b"GET /l/stor/a HTTP/1.1\r\n")
    t.run(SESSION, 11)
    t.given(put("a")[:-1])
    t.run(SESSION, 11)
    t.given(put("a"), get("a")[:-2])
    t.run(SESSION, 11, t.replies(put("a")))
    last = get("a", "Connection: x, Close")
    t.given(last, b"GE(T")
    t.run(SESSION, 0, t.replies(last))
    t.note("What is no message is refused, and nothing behind it is read; what begins as a HEAD too.")
    t.refused(b"GE(T /l/stor/a HTTP/1.1\r\n\r\n", "BadRequest", get("none"))
    t.refused(b"GET /l/stor/a HTTP/2.0\r\n\r\n", "BadRequest")
    t.refused(message("PUT /l/stor/a HTTP/1.1\nContent-Length: 5\nContent-Length: 6"), "BadRequest")
    t.refused(message("PUT /l/stor/a HTTP/1.1\nContent-Length: 5\nTransfer-Encoding: chunked"), "BadRequest")
    t.refused(message("PUT /l/stor/a HTTP/1.1\nTransfer-Encoding: chunked") + b"x\r\n", "BadRequest")
    t.refused(message("HEAD /l/stor/a HTTP/1.1\nContent-Length: x"), "BadRequest")
    t.given(message("PUT /l/stor/a HTTP/1.1\nTransfer-Encoding: chunked") + b"5")
    t.run(SESSION, 11)
    t.refused(message("PUT /l/stor/a HTTP/1.1\nContent-Length: 1073741825"), "RequestEntityTooLarge")
    t.refused(message("DELETE /l/stor/a HTTP/1.1\nContent-Length: 16777217"), "RequestEntityTooLarge", get("none"))
    t.refused(message("PUT /l/stor/a HTTP/1.1\nExpect: 100-continue\nContent-Length: 1073741825"), "RequestEntityTooLarge")
    t.note("Chunks, with an extension and a trailer; a client that waits is told to go on where a body comes, and not for an empty one.")
    chunks = message("PUT /l/stor/a HTTP/1.1\nTransfer-Encoding: chunked") + b"3;x=y\r\nhel\r\n2\r\nlo\r\n0\r\nt: v\r\n\r\n"
    t.session(chunks, get("a"))
    waiting = put("a", b"bye", "Expect: 100-continue")
    t.given(waiting, get("a"))
    t.run(SESSION, 0, INTERIM + t.replies(waiting, get("a")))
    t.session(put("a", b"", "Expect: 100-continue"))
    t.note("A client of the version before: it is not told to go on, and its connection is closed behind the reply.")
    old = message("PUT /l/stor/old HTTP/1.0\nExpect: 100-continue", b"o")
    t.given(old, get("old"))
    t.run(SESSION, 0, t.replies(old))


def serves(t):
    t.note("Two links over a door, one after the other, over one account; what stands on standard input is not read.")
    t.new()
    t.given(put("a"))
    print("link")
    t.given(get("a"), get("b"))
    print("link")
    t.given(put("unread"))
    t.run(f"{SERVE} 2", 0, links=[t.replies(put("a")), t.replies(get("a"), get("b"))])
    t.session(get(""))
    t.note("A door that fails at the third link, and one at which no link waits.")
    for _ in range(2):
        t.given(put("b", b"1"))
        print("link")
    print("fail door 2")
    t.run(f"{SERVE} 3", 10, links=[t.replies(put("b", b"1")), t.replies(put("b", b"1"))])
    t.run(f"{SERVE} 1", 10)
    t.note("A link that is cut off, one of no messages, one that is refused, and those whose reads or writes fail: each is given back, and the next is served.")
    t.given(put("c")[:-1])
    print("link")
    t.given()
    print("link")
    t.given(b"GE(T\r\n\r\n")
    print("link")
    t.given(get("a"))
    print("fail reads 0")
    print("link")
    t.given(put("c"))
    print("fail writes 0")
    print("link")
    t.given(get("c"))
    print("link")
    said = [b"", b"", refusal("BadRequest", t.store.count), b"", b""]
    t.store.ask(put("c"))
    t.run(f"{SERVE} 6", 0, links=said + [t.replies(get("c"))])
    t.note("A fault of the disk ends the serve: the link is given back, the next is not taken, and what was told stands.")
    t.given(put("d"), put("e"))
    print("link")
    t.given(get("a"))
    print("link")
    print(f"fail disk {REOPENING + 8}")
    t.run(f"{SERVE} 2", 5, links=[t.replies(put("d"))])
    t.session(get("d"), get("e"))


def clients(t, *links):
    """Links at a door, each in its pieces."""
    for pieces in links:
        for last, piece in enumerate(pieces, 1 - len(pieces)):
            t.given(*piece)
            print("link" if last == 0 else "piece")


def played(t, order, *links):
    """What is said to each link where their pieces come in this order."""
    said, left = [b""] * len(links), [list(pieces) for pieces in links]
    for number in order:
        said[number - 1] += t.replies(*left[number - 1].pop(0))
    return said


def turns(t):
    t.note("A door that tells nothing: links come by turns, piece by piece, over one account, and each gets its own replies. It wakes in between.")
    t.new()
    links = ([[put("a", b"1")], [get("b")], [get("a")]], [[put("b", b"2")], [get("a")]], [[get("")], [put("a", b"3"), get("a")], [delete("b")], [get("b")]])
    clients(t, *links)
    print("order 1 2 wake 1 2 3 wake wake 3 1 3 3")
    t.run(f"{SERVE} 3", 0, links=played(t, [1, 2, 1, 2, 3, 3, 1, 3, 3], *links))
    t.note("A link of one turn, and one whose pieces have many messages.")
    links = ([[get("a")]], [[put("c"), get("c"), get("a")], [delete("c"), get("c")]])
    clients(t, *links)
    print("order 2 1 2")
    t.run(f"{SERVE} 2", 0, links=played(t, [2, 1, 2], *links))
    t.note("One link closes in the middle of its piece, and is over; one is refused, and one is cut off: the others go on.")
    close = get("a", "Connection: close")
    clients(t, [[put("d")], [close, put("unread")], [put("unread")]], [[b"GE(T\r\n\r\n"]], [[put("cut")[:-1]]], [[get("d")], [get("a"), get("d")]])
    print("order 1 2 4 1 3 1 4")
    said = [t.replies(put("d")), refusal("BadRequest", t.store.count), b"", t.replies(get("d"))]
    said[0] += t.replies(close)
    said[3] += t.replies(get("a"), get("d"))
    t.run(f"{SERVE} 4", 0, links=said)
    t.note("A read of one link fails in its second turn, and a write of another in its first.")
    t.given(put("e"))
    print("piece")
    t.given(put("f"))
    print("fail reads 0")
    print("link")
    t.given(put("g"))
    print("fail writes 0")
    print("link")
    clients(t, [[get("e")], [get("g")]])
    print("order 1 2 3 1 3")
    said = [t.replies(put("e"))]
    t.store.ask(put("g"))
    t.run(f"{SERVE} 3", 0, links=said + [b"", t.replies(get("e"), get("g"))])
    t.note("A fault of the disk in the second turn of a link ends the serve: what was answered is there.")
    links = ([[put("h")], [put("i")], [put("unread")]], [[get("none")], [put("unread")]])
    clients(t, *links)
    print("order 1 2 1 2 1")
    print(f"fail disk {REOPENING + 8}")
    t.run(f"{SERVE} 2", 5, links=played(t, [1, 2], *links))
    t.session(get("h"), get("i"))
    t.note("As many links were taken as are asked for, and two of them are kept: no more is taken, and they are served until they are over.")
    links = ([[get("h")], [get("a")], [put("j")]], [[get("none")], [get("j")]], [[put("unread")]])
    clients(t, *links)
    print("order 1 2 3 1 wake 3 1 2")
    t.run(f"{SERVE} 2", 0, links=played(t, [1, 2, 1, 1, 2], *links))
    t.session(get("unread"))
    t.note("The door fails where two links are kept and fewer were taken than are asked for; and where all were taken it can't fail.")
    links = ([[put("k")], [put("unread")]], [[get("k")], [put("unread")]])
    clients(t, *links)
    print("order 1 2 fault 1 2")
    t.run(f"{SERVE} 3", 10, links=played(t, [1, 2], *links))
    links = ([[get("k")], [put("l")]], [[get("l")], [get("l")]])
    clients(t, *links)
    print("order 2 1 fault 1 fault 2")
    t.run(f"{SERVE} 2", 0, links=played(t, [2, 1, 1, 2], *links))
    t.session(get("unread"), get("l"))


CAT = b'{"phases":[{"exec":"cat"}]}'
TEXTS = ("in", "out", "fail", "err", "tasks", "status")
# What a session ends with by its last turn, and a serve.
STATUSES = {"Idle": 0, "SpawnFault": 6, "NotYet": 7, "Full": 9}


def job_path(command, tail=""):
    """The folder of the job that the command behind so many made."""
    return f"/l/jobs/{identifier(2, 4_096 * command)}{tail}"


def make(document=CAT):
    return message("POST /l/jobs HTTP/1.1", document)


def lines(command, *names):
    return message(f"POST {job_path(command, '/live/in')} HTTP/1.1", "".join(f"/l/stor/{name}\n" for name in names).encode())


def end(command):
    return message(f"POST {job_path(command, '/live/in/end')} HTTP/1.1")


def cancel(command):
    return message(f"POST {job_path(command, '/live/cancel')} HTTP/1.1")


def live(command, *texts):
    return [message(f"GET {job_path(command, '/live/' + text)} HTTP/1.1") for text in texts or TEXTS]


def at(path):
    return message(f"GET {path} HTTP/1.1")


def outputs(t, command):
    """What the last phase of a job left: each object that its out names."""
    job = t.store.jobs[identifier(2, 4_096 * command).encode()]
    return [at(name) for name in job.lines("l", "out")]


def jobs(t):
    t.note("A map job by turns: one behind each message, which commits a task where one is ready, and those of the drain at the end of the session, which close it.")
    t.new()
    t.worked(put("a"), make(), lines(1, "a", "a", "none"), end(1))
    t.worked(*live(1), at(job_path(1)), at(job_path(1, "/out.txt")), *outputs(t, 1))
    t.note("Behind a message that closes too a turn is taken. Each turn has the moment of a call of its own.")
    t.new()
    t.moments(10, 11, 20, 21, 30, 31, 40)
    t.worked(put("a"), make(), message(f"POST {job_path(1, '/live/in')} HTTP/1.1\nConnection: close", b"/l/stor/a\n"))
    t.moments(50, 51, 60, 61, 70)
    t.worked(end(1), *live(1, "status"))
    t.worked(*live(1, "status"), at(job_path(1, "/stor")))
    t.note("Two map phases: the task of the second is ready once that of the first is committed.")
    t.new()
    t.worked(put("a"), make(b'{"phases":[{"exec":"cat"},{"exec":"cat"}]}'), lines(1, "a"), end(1))
    t.worked(*live(1, "out", "tasks"), *outputs(t, 1))
    t.note("A reduce phase over nothing: three tasks, each ready once the input has ended.")
    t.new()
    t.worked(make(b'{"phases":[{"type":"reduce","exec":"cat","count":3}]}'), end(0))
    t.worked(*live(0, "out", "tasks"), *outputs(t, 0))
    t.note("Commands that take their time: two children are waited for in vain, and a third is committed first. A task of the next phase waits for all.")
    t.new()
    t.script(waits=[1, 1, 0])
    t.worked(put("a", b"1"), put("b", b"2"), put("c", b"3"), make(b'{"phases":[{"exec":"cat"},{"type":"reduce","exec":"cat","count":2}]}'), lines(3, "a", "b", "c"), end(3))
    t.worked(*live(3, "out", "tasks"), *outputs(t, 3))
    t.note("One slot: no two live at once.")
    t.new()
    t.script(slots=1)
    t.worked(put("a"), make(), lines(1, "a", "a", "a"), end(1), words=f"{SESSION} --slots 1")
    t.note("A command that fails.")
    t.new()
    t.script(otherwise=[1])
    t.worked(put("a"), make(), lines(1, "a", "a"), end(1))
    t.worked(*live(1))
    t.note("A job that is cancelled while its commands run: the next turn ends them.")
    t.new()
    t.script(waits=[100, 100])
    t.worked(put("a"), make(), lines(1, "a", "a"), *live(1, "status"), cancel(1), *live(1, "status"), lines(1, "a"))
    t.note("What is read of jobs stands as it was before the turn behind its message.")
    t.new()
    t.worked(put("a"), make(), lines(1, "a", "a", "a"), *live(1, "out"), *live(1, "out"), *live(1, "out"), *live(1, "out"))


def rooms(t):
    t.note("A turn without room behind a reply: the message was answered whole, those behind it are not read, and its command runs once there is room. A byte more, and it has.")
    for more in (-1, 0):
        t.new()
        t.worked(put("a"), make(), words=SESSION)
        grows = 21 + len(lines_command(t, 1, "a")) + pieces_size(5) + 21 + commit_of(5)
        t.worked(lines(1, "a"), at("/l/stor/a"), limit=t.store.used + grows + more)
        t.worked(*live(1, "tasks"))
    t.note("An end of a job without room: in the drain, and behind a reply.")
    for more in (-1, 0):
        t.new()
        t.worked(put("a"), make(), lines(1, "a"))
        need = t.store.used + 21 + 17 + closing_of(t, 1)
        t.worked(end(1), limit=need + more)
        t.worked(*live(1, "status"))
    t.note("A cancel without room is refused, and the log is as long as before.")
    t.new()
    t.worked(put("a"), make())
    t.worked(cancel(1), *live(1, "status"), limit=t.store.used + 98)
    t.worked(cancel(1), *live(1, "status"))


def lines_command(t, command, *names):
    """As long as the command of lines is."""
    return bytes(1 + 8 + 8 + 4) + b"".join(b"\0" + t.store.path_bytes((b"stor", name.encode())) for name in names)


def commit_of(size):
    """How many bytes the command has that commits one output on standard output."""
    return tasks.commit_size(TABLE.store, [tasks.Record("emit", None, None, bytes(size))], None)[0]


def closing_of(t, command):
    """By how much the end of a job whose input has ended grows the log."""
    job = t.store.jobs[identifier(2, 4_096 * command).encode()]
    ended, job.ended, job.done = job.ended, True, 0
    size = 21 + 98 + sum(pieces_size(len(job.text("l", kind))) for kind in ("err", "fail", "in", "status", "out"))
    job.ended, job.done = ended, None
    return size


def spawners(t):
    t.note("Starts that fail: between messages they are counted, and nothing else; in the last turn of the drain they are status 6. The next session commits.")
    t.new()
    t.script(starts_fail=[0, 1])
    t.worked(put("a"), make(), lines(1, "a"), end(1))
    t.new()
    t.script(starts_fail=[0, 1, 2])
    t.worked(put("a"), make(), lines(1, "a"), end(1))
    t.worked(*live(1, "tasks"))
    t.note("A wait that fails, and a read of what a command wrote: the task is ready again.")
    t.new()
    t.script(waits_fail=[0], reads_fail=[0])
    t.worked(put("a"), make(), lines(1, "a", "a"), end(1))
    t.worked(*live(1, "tasks"))
    t.note("A wait in vain in the last drain is status 7, one before it is none.")
    for waits in (1, 2, 3):
        t.new()
        t.script(waits=[waits])
        t.worked(put("a"), make(), lines(1, "a"), end(1))
        t.worked(*live(1, "tasks"))


def served(t, status, *links, wanted=None, failing=None, order=None, **script):
    """A serve with jobs: links of messages, each with a drain behind it, at the status."""
    for messages in links:
        t.given(*messages)
        print("link")
    t.script(**script)
    if failing is not None:
        print(f"fail door {failing}")
    said, last = [], "Idle"
    for messages in links[:failing]:
        replies, end = t.played(messages)
        said.append(replies)
        last = end if end == "Full" else t.crew.drain(t.store, t.tick)
        if last == "Full":
            break
    t.run(f"{SERVE} {wanted or len(links)}", status, links=said)
    t.counts()


def ordered(t, status, order, *links, limit=None, **script):
    """A serve with jobs whose door tells nothing: a drain behind each turn of a link, and behind each waking."""
    clients(t, *links)
    t.script(**script)
    print("order " + " ".join(map(str, order)))
    t.store.limit = limit or 1 << 30
    said, left = [b""] * len(links), [list(pieces) for pieces in links]
    for what in order:
        end = "Ended"
        if what != "wake":
            replies, end = t.played(left[what - 1].pop(0))
            said[what - 1] += replies
        if end == "Full" or t.crew.drain(t.store, t.tick) == "Full":
            break
    t.run(f"{SERVE} {len(links)}" + (f" --log-limit {limit}" if limit else ""), status, links=said)
    t.counts()


def drains(t):
    t.note("Links with jobs: a turn behind each message, and a drain behind each link.")
    t.new()
    served(t, 0, [put("a"), make(), lines(1, "a", "a")], [*live(1, "out")], [end(1)], [*live(1, "status")])
    t.note("A command that runs on behind the first link, and is done behind the second; and one that still runs behind the last: 7.")
    t.new()
    served(t, 0, [put("a"), make(), lines(1, "a")], [*live(1, "tasks")], [*live(1, "tasks")], waits=[2])
    t.new()
    served(t, 7, [put("a"), make(), lines(1, "a")], [*live(1, "tasks")], waits=[100])
    t.note("Starts that fail behind the last link are status 6, and a door that fails is 10, whatever the drains behind its links did.")
    t.new()
    served(t, 6, [put("a"), make(), lines(1, "a")], starts_fail=[0, 1])
    t.new()
    served(t, 10, [put("a"), make(), lines(1, "a")], [*live(1, "tasks")], [put("unread")], failing=2, waits=[100])
    t.worked(*live(1, "tasks"))
    t.note("A door that wakes: each waking has a drain, which takes what has ended.")
    t.new()
    ordered(t, 0, [1, "wake", "wake", 2, 1, "wake", 2], [[put("a"), make(), lines(1, "a", "a")], [*live(1, "tasks"), end(1)]], [[*live(1, "tasks")], [*live(1, "status")]], waits=[3, 4])
    t.note("A drain without room behind a waking, and behind a link: 9, and no link comes behind it.")
    for order, waits in (([1, "wake", 1], [2]), ([1, 2, 1], [2]), ([1, 1], [1])):
        t.new()
        t.worked(put("a"), make())
        grows = 21 + len(lines_command(t, 1, "a")) + pieces_size(5) + 21 + commit_of(5)
        links = [[[lines(1, "a")], [put("unread")]], [[at("/l/stor/a")]]]
        ordered(t, 9, order, *links[:max(what for what in order if what != "wake")], limit=t.store.used + grows - 1, waits=waits)
        t.worked(*live(1, "tasks"))


def job_stops(t):
    t.note("Each call of the disk fails in turn, of a session that makes a job, works its one task behind the message of its input, and closes it behind that of its end. A task is read by one call, its output is a piece; of the texts of the job three are pieces.")
    t.new()
    t.given(put("a"), make(), lines(1, "a"), end(1))
    t.stops([8, 6, 6, [1, 8], 6, [0, 12]])
    t.note("The same of a link with a commit behind its message.")
    t.new()
    t.worked(put("a"), make())
    t.given(lines(1, "a"))
    print("link")
    t.stops([6, [1, 8]], told=2, opening=REOPENING, words=f"{SERVE} 1")


def main():
    for part in (objects, routes, words, stores, limits, crashes, clocks, ends, serves, turns, jobs, rooms, spawners, drains, job_stops):
        part(TABLE)


TABLE = Table()
if __name__ == "__main__":
    main()
