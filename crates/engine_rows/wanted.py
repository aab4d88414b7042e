#!/usr/bin/env python3
"""Prints the wanted table of engine_rows: `python3 wanted.py > stdout`.

It follows docs/proof/FORMATS.md and the READMEs of mt_engine and mt_tree with struct and hashlib, and knows nothing of their code.
Commands on jobs are spelled by the table of account_rows, and taken by its account. The texts of a job are those of job_rows.
"""
import copy
import hashlib
import importlib.util
import os
import struct



def other(crate):
    """The table of another crate."""
    name = os.path.join(os.path.dirname(os.path.abspath(__file__)), "..", crate, "wanted.py")
    spec = importlib.util.spec_from_file_location(f"{crate}_wanted", name)
    found = importlib.util.module_from_spec(spec)
    spec.loader.exec_module(found)
    return found


accounts = other("account_rows")
shows = other("job_rows")

PIECE = 65_536
WINDOW = 16_384


def pattern(n):
    return bytes((i % 251) ^ (i // 256 % 256) for i in range(n))


def shown(data):
    return f"{len(data)} bytes {hashlib.md5(data).hexdigest()}"


def short(text):
    return struct.pack(">H", len(text)) + text


def record(payload):
    return b"\1" + struct.pack(">I", len(payload)) + hashlib.md5(payload).digest() + payload


def split(path):
    """The area and the components of a path of the login l."""
    parts = path.encode().split(b"/")[2:]
    return parts[0], tuple(parts[1:])


def spelled(path):
    area, parts = split(path)
    number = [b"stor", b"public", b"jobs"].index(area)
    return struct.pack(">BH", number, len(parts)) + b"".join(short(p) for p in parts)


def bodies_of(payload):
    """The bodies that a command brings, as places and lengths, in the order of its fields."""
    if payload[0] == 1:
        return [struct.unpack(">QQ", payload[-16:])]
    if payload[0] == 12:
        return [struct.unpack(">QQ", payload[k:k + 16]) for k in range(18, 98, 16)]
    if payload[0] != 8 or payload[29] != 0:
        return []
    at, found = 32, []

    def path():
        nonlocal at
        count = int.from_bytes(payload[at + 1:at + 3], "big")
        at += 3
        for _ in range(count):
            at += 2 + int.from_bytes(payload[at:at + 2], "big")

    for _ in range(int.from_bytes(payload[30:32], "big")):
        kind = payload[at]
        at += 1
        if kind != 1 or payload[at]:
            at += kind == 1
            path()
        else:
            at += 1
        if kind == 1:
            at += 5 if payload[at] else 1
        if kind != 3:
            found.append(struct.unpack(">QQ", payload[at:at + 16]))
            at += 16
    return found


class Store:
    """An engine over its log: what stands at paths, the number of commands, and the bytes of the file One."""

    def __init__(self):
        self.rows = {(a, ()): ("directory", 0) for a in (b"stor", b"public", b"jobs")}
        self.position, self.file, self.limit, self.closed = 0, b"MTLOG002\0", 0, False
        self.failing, self.made, self.records = set(), 0, []
        self.account, self.places, self.said, self.told = accounts.Account(), {0: 0}, {}, {}

    # ---- calls of the disk

    def calls(self, count):
        """Whether so many calls succeed, one after the other."""
        for _ in range(count):
            self.made += 1
            if self.made - 1 in self.failing:
                self.closed = True
                return False
        return True

    def read_again(self):
        """What an opening reads of the records once they were found, as places and counts of bytes: of each payload its length and its
        mark, of a command also the length again and all of it, and of a body its pieces."""
        at = 8
        while self.file[at] == 1:
            size = int.from_bytes(self.file[at + 1:at + 5], "big")
            payload = self.file[at + 21:at + 21 + size]
            yield at + 1, 4
            yield at + 21, 1
            if payload[0] != 0:
                yield at + 1, 4
                yield at + 21, size
            for first, left in bodies_of(payload):
                while left:
                    yield first + 22, min(left, PIECE)
                    first, left = first + 22 + PIECE, max(0, left - PIECE)
            at += 21 + size

    def opening(self):
        """How many calls of the disk open a log of at most 262,144 bytes that is there: a sync of each file, the length and the byte of head,
        the length of the log and a read of all of it; then each read that doesn't lie in the window."""
        made, start, stop = 7, 0, 0
        for at, count in self.read_again():
            if count >= WINDOW:
                made += 1
            elif at < start or at + count > stop:
                made, start, stop = made + 1, at, min(at + WINDOW, len(self.file))
        return made

    def size(self):
        return len(self.file) + sum(21 + len(p) for p in self.records)

    def lay(self, payload):
        """One record more in the run: None where it has no room, else whether the disk took it."""
        if self.size() + 21 + len(payload) > self.limit:
            return None
        if not self.calls(2):
            return False
        self.records.append(payload)
        return True

    def end(self):
        """The run is ended: whether the disk did."""
        if self.records and not self.calls(4):
            return False
        self.file = self.file[:-1] + b"".join(record(p) for p in self.records) + b"\0"
        self.records = []
        return True

    # ---- what the state allows

    def above(self, key):
        area, parts = key
        if not parts:
            return None
        there = self.rows.get((area, parts[:-1]))
        if there is None:
            return "DirectoryDoesNotExist"
        return "ParentNotDirectory" if there[0] == "object" else None

    def may_put(self, key):
        there = self.rows.get(key)
        if not key[1]:
            return "RootDirectory"
        if self.above(key):
            return self.above(key)
        return "DirectoryOperation" if there and there[0] == "directory" else None

    def refusal(self, call, key, source=None):
        if key[0] == b"jobs":
            return "RootDirectory"
        there = self.rows.get(key)
        if call == "put":
            return self.may_put(key)
        if call == "directory":
            return "EntityExists" if there else self.above(key)
        if call == "link":
            if source not in self.rows:
                return "LinkNotFound"
            if self.rows[source][0] == "directory":
                return "LinkNotObject"
            return self.may_put(key)
        if not key[1]:
            return "RootDirectory"
        if there is None:
            return "NotFound"
        below = any(k[0] == key[0] and k[1][:-1] == key[1] and k[1] for k in self.rows)
        return "DirectoryNotEmpty" if below else None

    def accept(self, payload, refusal, change):
        if self.closed:
            return "Closed"
        if refusal:
            return f"Refused({refusal})" if self.end() else "Disk"
        laid = self.lay(payload)
        if laid is None:
            return "Full" if self.end() else "Disk"
        if not laid or not self.end():
            return "Disk"
        change()
        self.position += 1
        return "Added"

    def tell(self, call, *words):
        """The account takes what was added."""
        self.account.count = self.position
        getattr(self.account, call)(*words)

    # ---- jobs

    def spell(self, moment, call, *words):
        """A command as a word of a row. Each body of it is the last that was stored of its length."""
        accounts.body = lambda size: struct.pack(">QQ", self.places[int(size)], int(size))
        payload = accounts.spelled(moment, call, *words)
        word = "".join(f"\\x{byte:02x}" for byte in payload)
        self.said[word] = (payload, call, *words)
        return word

    def command(self, word, count):
        data = pattern(int(count))
        stored, first = self.store(data, set())
        if stored != "Stored":
            return stored if self.closed else f"{stored}, {'Done' if self.end() else 'Disk'}"
        payload, call, *words = self.said[word]
        self.places[len(data)] = first
        then, refusal = copy.deepcopy(self.account), None
        then.count = self.position
        try:
            getattr(then, call)(*words)
        except accounts.lists.Refused as why:
            refusal = str(why)

        def change():
            if call == "make":
                self.told[4096 * self.position] = (int.from_bytes(payload[1:9], "big"), words[0], [])
            if call == "add":
                self.told[int(words[0])][2].extend(it for it in words[1:] if not self.account.is_object(accounts.lists.path(it)))
            self.account = then
        return self.accept(payload, refusal, change)

    def five(self, number, how, moment):
        """The texts that a job leaves as it ends so, in the order of their objects' names."""
        job, (created, document, missing) = self.account.job(number), self.told[int(number)]
        it = shows.Shown(int(number), created, document)
        it.inputs, it.missing, it.ended = [accounts.lists.printed(item["name"]) for item in job["inputs"]], missing, job["ended"]
        for entry in job["trace"]:
            made = (1, entry["failure"][1], b"") if entry["failure"] else [accounts.lists.printed(item["name"]) for item in entry["items"]]
            it.trace.append((entry["phase"], entry["place"], entry["position"], made))
        return [it.text("err"), it.text("fail"), it.text("in"), it.status(int(moment), how == "cancelled").encode(), it.text("out")]

    def store_five(self, five):
        """What became of the texts, and the places of those that were stored."""
        firsts = []
        for data in five:
            stored, first = self.store(data, set())
            if stored != "Stored":
                return stored, firsts
            firsts.append(first)
        return "Stored", firsts

    def drop(self, said):
        """The run is given up: one call more, where it has a piece."""
        done = "Done" if not self.records or self.calls(1) else "Disk"
        self.records = []
        return f"{said}, {done}"

    def texts(self, number, how, moment):
        five = self.five(number, how, moment)
        stored, firsts = self.store_five(five)
        if self.closed:
            return stored
        if stored == "Stored":
            stored = "; ".join(f"{name} {len(data)} at {first} {hashlib.md5(data).hexdigest()}" for name, data, first in zip(("err", "fail", "in", "status", "out"), five, firsts))
        return self.drop(stored)

    def close(self, number, how, moment):
        five = self.five(number, how, moment)
        size = sum(len(data) + 22 * -(-len(data) // PIECE) for data in five)
        if self.size() + size + 21 + 98 > self.limit:
            return f"adds {size}, no room"
        stored, firsts = self.store_five(five)
        if stored != "Stored":
            return f"adds {size}, {stored if self.closed else self.drop(stored)}"
        payload = struct.pack(">BQQ", 12, int(moment), int(number)) + bytes([how == "cancelled"]) + b"".join(struct.pack(">QQ", first, len(data)) for data, first in zip(five, firsts))
        then, refusal = copy.deepcopy(self.account), None
        then.count = self.position
        try:
            then.close(number, how)
        except accounts.lists.Refused as why:
            refusal = str(why)

        def change():
            self.account = then
            for k, (name, data, first) in enumerate(zip(("err.txt", "fail.txt", "in.txt", "job.json", "out.txt"), five, firsts)):
                at = accounts.lists.printed(accounts.Account.folder(int(number), name))
                self.rows[split(at)] = ("object", 4096 * self.position + k, int(moment), first, data)
        return f"adds {size}, {self.accept(payload, refusal, change)}"

    def room(self, word, pieces):
        return str(self.size() + int(pieces) + 21 + len(self.said[word][0]) <= self.limit).lower()

    def job(self, number):
        found = [it for it in self.account.jobs if it["number"] == int(number)]
        if not found:
            return "none"
        it = found[0]
        how = "running" if it["done"] is None else "cancelled" if it["cancelled"] else "finished"
        return f"{how}, inputs {len(it['inputs'])}, missing {it['missing']}, committed {len(it['trace'])}"

    def give_up(self, path, count):
        """A body that is stored in a run that is given up: one call more, where it had a piece."""
        stored, first = self.store(pattern(int(count)), set())
        if self.closed:
            return stored
        if stored == "Stored":
            md5 = ", ".join(str(byte) for byte in hashlib.md5(pattern(int(count))).digest())
            stored = f"Stored(Body {{ first: {first}, len: {count}, md5: [{md5}] }})"
        return self.drop(stored)

    # ---- rows

    def store(self, data, failing):
        """The pieces of a source whose reads of these numbers fail: what became of them, and the place of the first."""
        place, at, reads, first = self.size() - 1, 0, 0, 0
        while True:
            piece, why = b"", None
            while len(piece) < PIECE and why is None:
                reads += 1
                if reads - 1 in failing:
                    why = "SourceFault"
                elif at == len(data):
                    why = "Stored"
                else:
                    more = data[at:at + PIECE - len(piece)]
                    piece, at = piece + more, at + len(more)
            if piece:
                laid = self.lay(b"\0" + piece)
                if laid is None:
                    return why if why == "SourceFault" else "Full", first
                if not laid:
                    return "Disk", first
                first = place
            if why:
                return why, first

    def put(self, path, count, moment, *reads):
        data, key = pattern(int(count)), split(path)
        stored, first = self.store(data, {int(r) for r in reads})
        if stored != "Stored":
            if self.closed:
                return stored
            return f"{stored}, {'Done' if self.end() else 'Disk'}"
        payload = (b"\1" + struct.pack(">Q", int(moment)) + spelled(path) + short(b"text/plain")
                   + struct.pack(">QQ", first, len(data)))

        def change():
            self.rows[key] = ("object", 4096 * self.position, int(moment), first, data)
            self.places[len(data)] = first
            self.tell("put", path, len(data))
        return self.accept(payload, self.refusal("put", key), change)

    def directory(self, path, moment):
        key = split(path)

        def change():
            self.rows[key] = ("directory", int(moment))
            self.tell("directory", path)
        return self.accept(b"\2" + struct.pack(">Q", int(moment)) + spelled(path), self.refusal("directory", key), change)

    def link(self, path, source, moment):
        key, of = split(path), split(source)

        def change():
            kind, number, _, first, data = self.rows[of]
            self.rows[key] = (kind, number, int(moment), first, data)
            self.tell("link", path, source)
        payload = b"\3" + struct.pack(">Q", int(moment)) + spelled(path) + spelled(source)
        return self.accept(payload, self.refusal("link", key, of), change)

    def delete(self, path, moment):
        key = split(path)

        def change():
            del self.rows[key]
            self.tell("delete", path)
        return self.accept(b"\4" + struct.pack(">Q", int(moment)) + spelled(path), self.refusal("delete", key), change)

    def at(self, path):
        there = self.rows.get(split(path))
        if there is None:
            found = self.account.rows.get(accounts.lists.path(path))
            if found is None:
                return "nothing"
            if found[0] == "directory":
                return f"directory, moment {found[1]}"
            return f"object {found[1]}, moment {found[3]}, {found[2]} bytes at {self.places[found[2]]}"
        if there[0] == "directory":
            return f"directory, moment {there[1]}"
        return f"object {there[1]}, moment {there[2]}, {len(there[4])} bytes at {there[3]}"

    def send(self, path, start, end):
        return f"Whole {shown(self.rows[split(path)][4][int(start):int(end)])}"

    def part(self, path, at, count):
        return f"Ok(()) {shown(self.rows[split(path)][4][int(at):int(at) + int(count)])}"

    def below(self):
        """What stands below /l/stor, in the order of the names."""
        found = sorted((k[1][0], v) for k, v in self.rows.items() if k[0] == b"stor" and len(k[1]) == 1)
        each = [f"{n.decode()}/ {v[1]}" if v[0] == "directory" else f"{n.decode()} {v[1]}" for n, v in found]
        return ", ".join(each)

    def where(self):
        return f"log {len(self.file)}, position {self.position}"


class Table:
    """The rows and their answers."""

    def __init__(self):
        self.store, self.steps, self.before, self.lines = Store(), [], None, []

    def answer(self, line):
        call, *words = line.split(" ")
        s = self.store
        if call == "disk":
            self.store = Store()
        elif call == "open":
            s.limit, s.closed, s.records = int(words[0]), False, []
            return f"Ok, {s.where()}" if s.calls(s.opening()) else "Disk"
        elif call == "fail":
            s.failing, s.made = {int(w) for w in words}, 0
        elif call == "one":
            return shown(s.file)
        elif call in ("put", "directory", "link", "delete", "command", "give-up", "texts", "close"):
            made = s.made
            done = getattr(s, call.replace("-", "_"))(*words)
            return f"{done}; {'closed' if s.closed else s.where()}; calls {s.made - made}"
        elif call == "rows":
            return s.below() or None
        elif call in ("at", "send", "part", "job", "room"):
            return getattr(s, call)(*words)
        return None

    def row(self, line, answer=None):
        answer = self.answer(line) if answer is None else answer
        self.lines.append(line if answer is None else f"{line:<48} => {answer}")

    def job_row(self, count, call, *words, row="command"):
        """A command on jobs, behind a body of so many bytes, with its words before it."""
        s = self.store
        if count:
            s.places[count] = s.size() - 1
        self.lines.append(f"# {call} {' '.join(words)}")
        self.row(f"{row} {s.spell(1000 + s.position, call, *words)} {count}")

    def say(self, text):
        self.lines += ["", f"# {text}"]


def main():
    t = Table()
    t.lines.append("# The wanted answers are written by `python3 wanted.py`. `open`: the engine of the disk under a limit.")
    t.lines.append("# `put PATH COUNT MOMENT READ..`: so many bytes, of a source whose reads of these numbers fail.")

    t.say("Puts, a link, a directory and a delete, and the same again once the disk is opened anew.")
    for line in ("disk", "open 400000", "fail",
                 "put /l/stor/a 5 7", "at /l/stor/a", "send /l/stor/a 0 5", "send /l/stor/a 1 4", "part /l/stor/a 2 3",
                 "put /l/stor/b 65537 8", "at /l/stor/b", "send /l/stor/b 65535 65537", "part /l/stor/b 0 65537",
                 "put /l/stor/empty 0 9", "at /l/stor/empty", "send /l/stor/empty 0 0",
                 "directory /l/stor/d 10", "link /l/stor/d/c /l/stor/b 11", "at /l/stor/d/c",
                 "put /l/stor/b 3 12", "at /l/stor/b", "at /l/stor/d/c", "send /l/stor/d/c 65530 65537",
                 "delete /l/stor/a 13", "at /l/stor/a", "rows", "one",
                 "open 400000", "rows", "at /l/stor/d/c", "send /l/stor/d/c 65530 65537", "at /l/stor/b", "send /l/stor/b 0 3"):
        t.row(line)

    t.say("Each refusal. The pieces of a put that is refused stay, and name nothing.")
    for line in ("disk", "open 400000", "fail", "put /l/stor/o 1 1", "directory /l/stor/d 1", "put /l/stor/d/x 1 1",
                 "put /l/stor/no/a 5 2", "put /l/stor/o/a 5 2", "put /l/stor/d 5 2", "put /l/stor 5 2", "put /l/jobs/a 5 2",
                 "directory /l/stor/d 2", "directory /l/stor/o 2", "directory /l/stor/no/a 2", "directory /l/stor/o/a 2", "directory /l/jobs/a 2",
                 "link /l/stor/l /l/stor/none 2", "link /l/stor/l /l/stor/d 2", "link /l/stor/d /l/stor/o 2", "link /l/stor/no/l /l/stor/o 2", "link /l/jobs/l /l/stor/o 2",
                 "delete /l/stor/none 2", "delete /l/stor/d 2", "delete /l/stor 2", "delete /l/jobs/a 2",
                 "rows", "open 400000", "rows"):
        t.row(line)

    t.say("Limits: a put of 5 bytes adds 27 bytes for its piece and 64 for its command. At 100 both have room, at 99 the piece alone,")
    t.lines.append("# and at 36 it too; at 35 neither.")
    need = 9 + 27 + 21 + len(b"\1" + bytes(8) + spelled("/l/stor/a") + short(b"text/plain") + bytes(16))
    for limit in (need, need - 1, 36, 35):
        for line in ("disk", f"open {limit}", "fail", "put /l/stor/a 5 7", "at /l/stor/a", "one"):
            t.row(line)
    t.say("A body of two pieces: the second has no room. A directory one byte below its need, and at it.")
    for line in ("disk", "open 65570", "fail", "put /l/stor/a 65537 7", "directory /l/stor/d 7", "one"):
        t.row(line)
    need = 9 + 21 + len(b"\2" + bytes(8) + spelled("/l/stor/d"))
    for limit in (need - 1, need):
        for line in ("disk", f"open {limit}", "fail", "directory /l/stor/d 7", "one"):
            t.row(line)

    t.say("A source that fails: what came before stays, and is no object.")
    for line in ("disk", "open 400000", "fail", "put /l/stor/a 5 7 1", "put /l/stor/a 65537 7 1", "put /l/stor/a 5 7 0", "rows", "one",
                 "put /l/stor/a 5 7", "at /l/stor/a", "open 400000", "send /l/stor/a 0 5"):
        t.row(line)

    t.say("A call of the disk that fails closes the engine: of a put of two pieces ten calls, of a directory six.")
    for call in range(10):
        for line in ("disk", "open 400000", f"fail {call}", "put /l/stor/a 65537 7"):
            t.row(line)
    for line in ("directory /l/stor/d 7", "at /l/stor/d"):
        t.row(line)
    for call in range(6):
        for line in ("disk", "open 400000", f"fail {call}", "directory /l/stor/d 7"):
            t.row(line)

    t.say("Openings of a log over a window of 16,384 bytes: each call of the disk fails in turn; the one behind the last is the next command's.")
    for line in ("disk", "open 400000", "fail", "put /l/stor/a 5 7", "put /l/stor/b 16361 8", "put /l/stor/c 16362 9", "put /l/stor/d 16383 10",
                 "put /l/stor/e 16384 11", "put /l/stor/f 0 12", "put /l/stor/g 65537 13", "link /l/stor/h /l/stor/g 14", "delete /l/stor/a 15",
                 "put /l/stor/i 20000 16", "put /l/stor/j 16000 17", "put /l/stor/k 5 18", "put /l/stor/l 5 19"):
        t.row(line)
    for call in range(t.store.opening() + 1):
        for line in (f"fail {call}", "open 400000"):
            t.row(line)
    for line in ("directory /l/stor/m 20", "fail", "open 400000", "rows", "at /l/stor/h", "send /l/stor/h 65530 65537"):
        t.row(line)

    t.say("Stops in each call of a put of two pieces behind another, and what a crash leaves: the history of before, but where the call 9")
    t.lines.append("# fails, the sync of the gate. There the gate's byte is picked: what a read gives, nothing, a 0, a 1, half of it, or all.")
    t.lines.append("# `stop LIMIT CALL PICK..`; a call that fails does nothing.")
    stops(t, ["put /l/stor/a 5 7"], "put /l/stor/b 65537 8", 10)
    t.say("The same in each call of a link, of a put over what is linked, of a delete, and of a directory.")
    stops(t, ["put /l/stor/a 5 7"], "link /l/stor/b /l/stor/a 8", 6)
    stops(t, ["put /l/stor/a 5 7", "link /l/stor/b /l/stor/a 8"], "put /l/stor/a 3 9", 8)
    stops(t, ["put /l/stor/a 5 7", "link /l/stor/b /l/stor/a 8"], "delete /l/stor/a 9", 6)
    stops(t, ["put /l/stor/a 5 7"], "directory /l/stor/d 8", 6)
    job_rows(t)
    print("\n".join(t.lines))


def job_rows(t):
    """Each command on jobs, and the same jobs once the log is opened again."""
    t.say("Commands on jobs, and what stands once the log is opened again. `command BYTES COUNT`: a command as the log spells it, in a run")
    t.lines.append("# behind a body of so many bytes; `job NUMBER`: how a job stands. A comment says the command in words.")

    def asked(*numbers):
        for number in numbers:
            t.row(f"job {number}")

    for line in ("disk", "open 400000", "fail", "put /l/stor/a 5 1000", "put /l/stor/s 7 1001"):
        t.row(line)
    t.job_row(0, "make", '{"phases":[{"exec":"x","assets":["/l/stor/s"]},{"exec":"y","type":"reduce","count":2}]}')
    t.job_row(0, "add", "8192", "/l/stor/a", "/l/stor/a", "/l/stor/none")
    asked(8192)
    t.job_row(70_000, "commit", "8192", "0", "1", "emit", "-", "1", "70000", "keep", "/l/stor/k", "-", "7")
    t.job_row(0, "commit", "8192", "0", "2")
    t.job_row(0, "end", "8192")
    t.job_row(0, "finish", "8192")
    t.row("open 400000")
    asked(8192)
    t.row("at /l/stor/k")
    t.job_row(4, "commit", "8192", "0", "0", "emit", "-", "-", "4", "ref", "/l/stor/a", "-", "0")
    t.job_row(0, "fail", "8192", "1", "0", "3")
    t.job_row(0, "commit", "8192", "1", "1")
    t.job_row(0, "commit", "8192", "1", "1")
    for size in range(10, 15):
        t.row(f"put /l/stor/t {size} {1000 + t.store.position}")
    t.job_row(0, "close", "8192", "done")
    t.job_row(0, "close", "8192", "done")
    asked(8192)
    t.job_row(0, "make", '{"phases":[{"exec":"z"}]}')
    second = 4096 * (t.store.position - 1)
    t.job_row(0, "cancel", str(second))
    t.job_row(0, "make", '{"phases":[{"exec":"z"}]}')
    third = 4096 * (t.store.position - 1)
    t.job_row(0, "end", str(third))
    t.job_row(0, "finish", str(third))
    t.job_row(0, "make", '{"phases":[{"exec":"z"}]}')
    last = 4096 * (t.store.position - 1)
    t.job_row(0, "cancel", "0")
    jobs = (8192, second, third, last)
    asked(*jobs, 0)
    for line in ("open 400000",):
        t.row(line)
    asked(*jobs, 0)
    folder = accounts.lists.printed(accounts.Account.folder(8192))
    for name in ("stor", "err.txt", "fail.txt", "in.txt", "job.json", "out.txt"):
        t.row(f"at {folder}/{name}")

    t.say("A commit whose output is no body that stands in the log is taken by an engine, and makes its log Foreign, at its place.")
    t.job_row(0, "add", str(last), "/l/stor/a")
    t.store.places[9] = t.store.places[70_000] + 1
    at = t.store.size() - 1
    t.job_row(0, "commit", str(last), "0", "0", "emit", "-", "-", "9")
    t.row("open 400000", f"Unreadable(Foreign {{ at: {at} }})")

    t.say("Room: a commit with an output of 5 bytes adds 27 bytes for its piece, and its own. Asking writes nothing, and takes no run.")
    for line in ("disk", "open 400000", "fail", "put /l/stor/a 5 1000"):
        t.row(line)
    t.job_row(0, "make", '{"phases":[{"exec":"z"}]}')
    t.job_row(0, "add", "4096", "/l/stor/a")
    s = t.store
    words = ("commit", "4096", "0", "0", "emit", "-", "-", "5")
    need = s.size() + 27 + 21 + len(s.said[s.spell(1000 + s.position, *words)][0])
    for limit in (need, need - 1, s.size() - 1):
        t.row(f"open {limit}")
        for pieces in (27, 28, 0, 18446744073709551615):
            t.row(f"room {s.spell(1000 + s.position, *words)} {pieces}")
    t.row("one")
    t.row(f"open {need}")
    s.places[5] = s.size() - 1
    t.job_row(5, *words)

    t.say("A run that is given up: one call of the disk more than its pieces, none where it has none, and the log is that of before. Each")
    t.lines.append("# call fails in turn. What is stored next is written over it.")
    for line in ("disk", "open 400000", "fail", "put /l/stor/a 5 7", "give-up - 5", "give-up - 0", "give-up - 70000", "open 400000", "put /l/stor/b 5 8",
                 "open 400000", "rows", "at /l/stor/b"):
        t.row(line)
    for call in range(6):
        for line in ("disk", "open 400000", f"fail {call}", "give-up - 70000"):
            t.row(line)
    for line in ("disk", "open 65570", "fail", "give-up - 65537", "put /l/stor/a 5 7"):
        t.row(line)

    text_rows(t)
    t.say("Stops in each call of a commit behind its output, of a new job, and of an end; of lines that are added; of a job that is finished, one that")
    t.lines.append("# is cancelled, and one that is closed over bodies that stand; of a job that is closed behind its texts.")
    base, made = ["put /l/stor/a 5 1000"], [(0, "make", '{"phases":[{"exec":"z"}]}')]
    planned(t, base, [*made, (0, "add", "4096", "/l/stor/a")], (4, "commit", "4096", "0", "0", "emit", "-", "-", "4"))
    planned(t, base, [], made[0])
    planned(t, base, made, (0, "end", "4096"))
    planned(t, base, made, (0, "add", "4096", "/l/stor/a", "x"))
    planned(t, base, [*made, (0, "end", "4096")], (0, "finish", "4096"))
    planned(t, base, made, (0, "cancel", "4096"))
    planned(t, [f"put /l/stor/t {size} 1000" for size in range(10, 15)], [(0, "make", '{"phases":[{"exec":"z"}]}'), (0, "end", "20480")], (0, "close", "20480", "done"))
    planned(t, base, [*made, (0, "add", "4096", "/l/stor/a", "x"), (0, "fail", "4096", "0", "0", "3")], "close 4096 cancelled 1004")


def text_rows(t):
    """The five texts of a job, as it ends."""

    def said(*lines):
        for line in lines:
            t.row(line)

    def ends(number):
        folder = accounts.lists.printed(accounts.Account.folder(number))
        for name in ("err.txt", "fail.txt", "in.txt", "job.json", "out.txt"):
            t.row(f"at {folder}/{name}")
            t.row(f"send {folder}/{name} 0 {len(t.store.rows[split(folder + '/' + name)][4])}")

    def begun(*lines):
        said("disk", "open 400000", "fail", "put /l/stor/a 5 1000")
        t.job_row(0, "make", '{"phases":[{"exec":"x"},{"exec":"y"}]}')
        t.job_row(0, "add", "4096", "/l/stor/a", "/l/stor/a", "/l/stor/none", *lines)

    t.say("The texts of a job, as it ends: `texts NUMBER HOW MOMENT` stores them in a run that is given up; `close NUMBER HOW MOMENT` says how much")
    t.lines.append("# they add, asks for room, stores them, and ends the job. Of one that isn't complete they stay, and name nothing.")
    begun("no path")
    said("texts 4096 done 2000", "texts 4096 cancelled 253402300799", "close 4096 done 2000")
    t.job_row(4, "commit", "4096", "0", "1", "emit", "-", "-", "4", "keep", "/l/stor/k", "-", "4")
    t.job_row(0, "fail", "4096", "0", "0", "3")
    t.job_row(0, "end", "4096")
    t.job_row(6, "commit", "4096", "1", "0", "ref", "/l/stor/a", "-", "0", "emit", "/l/stor/out", "-", "6")
    said("texts 4096 done 2000", "close 4096 done 2000", "job 4096")
    ends(4096)
    said("close 4096 cancelled 2001", "close 4096 done 2001", "open 400000", "job 4096")
    ends(4096)
    t.say("A job that is cancelled, of which nothing ran; a text of more than one piece.")
    begun()
    said("close 4096 cancelled 2000", "open 400000", "job 4096")
    ends(4096)
    begun(*["x"] * 860)
    said("texts 4096 cancelled 2000", "close 4096 cancelled 2000", "open 400000", "job 4096")
    ends(4096)
    t.say("Room for the texts and the command, one byte less, and so few that some texts have none: where there is none nothing is written.")
    begun()
    s = t.store
    need = s.size() + sum(len(data) + 22 * -(-len(data) // PIECE) for data in s.five(4096, "cancelled", 2000)) + 21 + 98
    said(f"open {need - 1}", "close 4096 cancelled 2000", "one")
    for limit in (need - 119, need - 120, s.size() + 21):
        said(f"open {limit}", "close 4096 cancelled 2000", "texts 4096 cancelled 2000")
    said(f"open {need}", "close 4096 cancelled 2000")
    t.say("Each call of the disk fails in turn, of texts that are given up and of a job that is closed; the one behind the last doesn't.")
    for row, more in (("texts", 1), ("close", 6)):
        pieces = sum(-(-len(data) // PIECE) for data in s.five(4096, "cancelled", 2000))
        for call in range(2 * pieces + more + 1):
            begun()
            said(f"fail {call}", f"{row} 4096 cancelled 2000")
    t.say("Openings of a log with a commit and a job that is closed: each call of the disk fails in turn.")
    begun()
    t.job_row(70_000, "commit", "4096", "0", "0", "emit", "-", "7", "70000", "keep", "/l/stor/k", "-", "5", "ref", "/l/stor/a", "-", "0", "emit", "/l/stor/e", "-", "0")
    said("close 4096 cancelled 2000")
    for call in range(t.store.opening() + 1):
        said(f"fail {call}", "open 400000")
    said("fail", "open 400000", "job 4096", "at /l/stor/k")
    ends(4096)


def planned(t, puts, before, last):
    """Stops of a step behind others, a command on jobs or a row: the rows are spelled by a store that has those before."""
    it, rows = Store(), list(puts)
    it.limit = 400000
    for line in puts:
        getattr(it, line.split(" ")[0])(*line.split(" ")[1:])
    for step in (*before, last):
        if isinstance(step, str):
            rows.append(step)
            continue
        count, *words = step
        if count:
            it.places[count] = it.size() - 1
        word = it.spell(1000 + it.position, *words)
        rows.append(f"command {word} {count}")
        if step is not last:
            it.command(word, count)
    made = it.made
    call, *words = rows[-1].split(" ")
    answer = getattr(it, call)(*words)
    stops(t, rows[:-1], rows[-1], it.made - made, it.said, answer[:-len("Added")])


def stops(t, before, step, calls, said=None, front=""):
    """A session over what these commands made, stopped in each call of one more, whose last call is the sync of the gate; in front of what
    became of it stands this."""
    t.row("disk")
    t.store.said = said or {}
    for line in ("open 400000", "fail", *before, "steps", f"step {step}", "step directory /l/stor/e 9"):
        t.row(line)
    old, after = t.store, Store()
    after.limit, after.said = 400000, said or {}
    for line in (*before, step):
        call, *words = line.split(" ")
        getattr(after, call)(*words)
    opened = f"Ok, {old.where()}"
    kept, added = (f"Ok, {it.where()}: {it.below()}" for it in (old, after))
    for call in range(calls):
        for picks in ("", " whole") if call < calls - 1 else ("", " nothing", " zeros", " ones", " half", " whole"):
            left = added if call == calls - 1 and picks in ("", " whole", " ones") else kept
            t.row(f"stop 400000 {call}{picks}", f"{opened}; {front}Disk; closed; left {left}")


if __name__ == "__main__":
    main()
