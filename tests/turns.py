"""Turns of the model's account: a job whose tasks are all committed is closed, else a ready task is run and committed, as docs/proof/MEANING.md,
docs/user/TASKS.md and docs/proof/FORMATS.md have it. A command is a function of what it reads: `work(run, data)` gives what the task leaves.
"""
import collections
import struct

from model import Entry, Item, Row, identifier, pieces_size, printed, read_text_path

MOST_RECORDS, LARGEST_OUTPUT, LONGEST_STDERR, LONGEST_TEXT = 4_095, 1 << 24, 1_024, 1_200
CODES = ["UserTaskError", "TaskOutputTooLarge", "TaskRecordError", "TaskPlaceRefused", "TaskObjectMissing"]
# What a task is run with: its job, phase, command, the command before it, how names of its outputs begin, the object that a map task
# reads or None, the number of a reducer or None, and its assets, each with its name and bytes.
Run = collections.namedtuple("Run", "job phase execute init base object reducer assets")
# What it leaves: its status, standard error, standard output, and its files, each with its number and bytes.
Left = collections.namedtuple("Left", "status err out files")
Record = collections.namedtuple("Record", "kind place reducer body")  # a kind is emit, keep or ref; a place is a text or None


def leaves(out=b"", status=0, err=b"", files=()):
    return Left(status, err, out, list(files))


# Records of helpers.
def record_bytes(record):
    """The file of a record."""
    sized = lambda text: struct.pack(">H", len(text.encode())) + text.encode()
    head = {"emit": b"\1", "keep": b"\2", "ref": b"\3"}[record.kind]
    if record.kind == "emit":
        head += b"\0" if record.place is None else b"\1" + sized(record.place)
        head += b"\0" if record.reducer is None else struct.pack(">BI", 1, record.reducer)
    else:
        head += sized(record.place)
    return head + record.body + b"MREC" + struct.pack(">Q", len(record.body))


class Malformed(Exception):
    """A file is no record."""


class Front:
    """Fields from the front of some bytes."""

    def __init__(self, data):
        self.data = data

    def take(self, count):
        if count > len(self.data):
            raise Malformed
        taken, self.data = self.data[:count], self.data[count:]
        return taken

    def text(self):
        text = self.take(int.from_bytes(self.take(2), "big"))
        try:
            if len(text) <= LONGEST_TEXT:
                return text.decode()
        except UnicodeDecodeError:
            pass
        raise Malformed

    def option(self, read):
        flag = self.take(1)
        if flag not in (b"\0", b"\1"):
            raise Malformed
        return read() if flag == b"\1" else None


def read_record(data):
    """What a file asks for."""
    if len(data) < 13 or data[-12:-8] != b"MREC" or int.from_bytes(data[-8:], "big") > len(data) - 12:
        raise Malformed
    size = int.from_bytes(data[-8:], "big")
    head, body = Front(data[:len(data) - 12 - size]), data[len(data) - 12 - size:len(data) - 12]
    kind = {b"\1": "emit", b"\2": "keep", b"\3": "ref"}.get(head.take(1))
    if kind is None or kind == "ref" and body:
        raise Malformed
    if kind == "emit":
        place = head.option(head.text)
        reducer = head.option(lambda: int.from_bytes(head.take(4), "big"))
    else:
        place, reducer = head.text(), None
    if head.data:
        raise Malformed
    return Record(kind, place, reducer, body)


def judge(login, left):
    """The fate of a task: its records, their places as paths, or how it failed."""
    bad = lambda code: (None, (code, left.status, left.err[:LONGEST_STDERR]))
    if left.status != 0:
        return bad("UserTaskError")
    if len(left.out) + sum(len(data) for _, data in left.files) > LARGEST_OUTPUT:
        return bad("TaskOutputTooLarge")
    numbers = [number for number, _ in left.files]
    if any(number >= MOST_RECORDS for number in numbers) or any(one >= next for one, next in zip(numbers, numbers[1:])):
        return bad("TaskRecordError")
    try:
        records = [read_record(data) for _, data in left.files]
    except Malformed:
        return bad("TaskRecordError")
    if all(record.kind == "keep" for record in records):
        records.append(Record("emit", None, None, left.out))
    if len(records) > MOST_RECORDS:
        return bad("TaskRecordError")
    asked = []
    for record in records:
        path = None if record.place is None else read_text_path(login, record.place)
        if record.place is not None and path is None:
            return bad("TaskObjectMissing" if record.kind == "ref" else "TaskPlaceRefused")
        asked.append(record._replace(place=path))
    return asked, None


# A commit.
def ends_in_output(name):
    try:
        text = name[-36:].decode()
        return len(text) == 36 and text == identifier(3, int(text.replace("-", ""), 16) & ((1 << 63) - 1))
    except (UnicodeDecodeError, ValueError):
        return False


class Refusal(Exception):
    """A record is refused."""


class Commit:
    """The records of a task, taken one after another over the rows of an account."""

    def __init__(self, store, job, phase, root):
        self.store, self.job, self.phase, self.root = store, job, phase, root
        self.rows, self.items, self.made = dict(store.rows), [], 0

    def is_place(self, path):
        """Where tasks of this job may make objects."""
        if path[0] == b"jobs":
            return path[1:3] == (identifier(2, self.job.number).encode(), b"stor") and len(path) > 3 and not ends_in_output(path[3])
        return len(path) > 1

    def put(self, path, body):
        for above in range(1, len(path)):
            self.rows.setdefault(path[:above], Row(self.store.moment))
        number = self.store.count * 4_096 + self.made
        self.rows[path] = Row(self.store.moment, body, number, "application/octet-stream")
        self.made += 1

    def put_placed(self, path, body):
        is_object = lambda path: path in self.rows and self.rows[path].is_object()
        above = any(is_object(path[:count]) for count in range(1, len(path)))
        if not self.is_place(path) or path in self.rows and not is_object(path) or above:
            raise Refusal("TaskPlaceRefused")
        self.put(path, body)

    def take(self, record):
        name, body = record.place, record.body
        if record.kind == "ref":
            row = self.rows.get(name)
            if row is None or not row.is_object():
                raise Refusal("TaskObjectMissing")
            body = row.body
        elif name is not None:
            self.put_placed(name, body)
        else:
            last = self.root + f".{self.phase}.{identifier(3, self.store.count * 4_096 + self.made)}".encode()
            name = (b"jobs", identifier(2, self.job.number).encode(), b"stor", last)
            self.put(name, body)
        if record.kind != "keep":
            self.items.append(Item(name, self.root, body, record.reducer))


def commit_size(store, records, failure):
    """How many bytes the command has, and how many the pieces of its bodies."""
    size, pieces = 1 + 8 + 8 + 4 + 8, 0
    if failure is not None:
        return size + 1 + 1 + 4 + 2 + len(failure[2]), 0
    size += 1 + 2
    for record in records:
        size += 1 + (0 if record.place is None else len(store.path_bytes(record.place)))
        size += (1 + (0 if record.reducer is None else 4) + 1) if record.kind == "emit" else 0
        if record.kind != "ref":
            size, pieces = size + 16, pieces + pieces_size(len(record.body))
    return size, pieces


def run_of(store, job, phase, place):
    """What a task is run with, and what it reads."""
    asked, items = job.phases[phase], job.reads(phase, place)
    root = items[0].root if asked.count is None else b"reduce"
    base = printed(store.login, (b"jobs", identifier(2, job.number).encode(), b"stor", root)) + f".{phase}."
    assets = [(printed(store.login, name), body) for name, body in zip(asked.assets, job.assets[phase])]
    reducer = None if asked.count is None else place
    run = Run(job.number, phase, asked.execute, asked.init, base, job.object_read(store.login, phase, place), reducer, assets)
    return run, root, b"".join(item.body for item in items)


def commit(store, job, phase, place, work):
    """Runs a ready task and commits it, where the log has room for it."""
    run, root, data = run_of(store, job, phase, place)
    records, failure = judge(store.login, work(run, data))
    size, pieces = commit_size(store, records, failure)
    if not store.has_room(pieces, size):
        return False
    taken = Commit(store, job, phase, root)
    try:
        for record in records or []:
            taken.take(record)
    except Refusal as why:
        failure = (str(why), 0, b"")
    if failure is None:
        store.rows = taken.rows
    job.trace.append(Entry(phase, place, store.count, [] if failure else taken.items, failure))
    store.count += 1
    return True


def turn(store, work):
    """What one turn does: `Closed` with the number of a job; else `Committed` with the number, phase and place of the first ready task; `Full`
    where the log has no room for it; `Idle` where there is nothing to do."""
    jobs = [job for _, job in sorted(store.jobs.items(), key=lambda found: found[1].number)]
    waiting = next((job for job in jobs if job.waits()), None)
    if waiting is not None:
        return ("Closed", waiting.number) if store.close(waiting, False) else ("Full",)
    for job in jobs:
        for phase, place in job.ready()[:1]:
            done = commit(store, job, phase, place, work)
            return ("Committed", job.number, phase, place) if done else ("Full",)
    return ("Idle",)


def drain(store, work, most=1_048_576):
    """Turns until one does nothing, at most so many; what the last one did."""
    for _ in range(most):
        last = turn(store, work)
        if last[0] not in ("Closed", "Committed"):
            break
    return last
