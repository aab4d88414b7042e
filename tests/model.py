"""A model of the store: what each request is answered, by docs/user/API.md and docs/proof/MEANING.md, with Python's own libraries and
none of the store's code. `Store.ask` takes the bytes of one request, and gives the reply's bytes.
"""
import base64
import collections
import datetime
import email.utils
import hashlib
import json
import struct
import urllib.parse
import uuid

PIECE = 65_536
MOST_PATH, MOST_NAME = 1_024, 255
JSON = "application/json"
PAGE_TYPE = "application/x-json-stream; type=directory"
METHODS = "DELETE, GET, HEAD, PUT"
PHRASES = {
    200: "OK", 201: "Created", 202: "Accepted", 204: "No Content", 206: "Partial Content", 304: "Not Modified", 400: "Bad Request", 403: "Forbidden",
    404: "Not Found", 405: "Method Not Allowed", 409: "Conflict", 412: "Precondition Failed", 413: "Content Too Large",
    416: "Range Not Satisfiable", 507: "Insufficient Storage",
}
ERRORS = {
    "BadRequest": (400, "the request is not well formed"),
    "ResourceNotFound": (404, "no such resource"),
    "DirectoryDoesNotExist": (404, "the parent directory does not exist"),
    "ParentNotDirectory": (400, "the parent is not a directory"),
    "DirectoryNotEmpty": (400, "the directory is not empty"),
    "DirectoryOperation": (400, "the path is a directory"),
    "EntityExists": (409, "the path is an object"),
    "RootDirectory": (400, "the path is a root directory"),
    "LinkNotFound": (404, "the link's source does not exist"),
    "LinkNotObject": (400, "the link's source is not an object"),
    "LinkRequired": (400, "a link needs a Location"),
    "PreconditionFailed": (412, "a precondition does not hold"),
    "ContentMD5Mismatch": (400, "the body does not have this MD5"),
    "RequestEntityTooLarge": (413, "the body is over the limit"),
    "InvalidLimit": (400, "the limit must be 1 to 1024"),
    "InvalidJob": (400, "the job document is not valid"),
    "JobNotFound": (404, "no such job"),
    "JobState": (400, "the job does not take this now"),
    "InvalidArgument": (400, "too many inputs"),
    "NotEnoughSpace": (507, "the log is full"),
    "MethodNotAllowed": (405, "the method is not allowed here"),
    "Authorization": (403, "not this account"),
    "OriginRefused": (403, "requests of web pages are not taken"),
    "RangeNotSatisfiable": (416, "the range cannot be met"),
    "InvalidDurabilityLevel": (400, "the durability level must be 1 to 6"),
    "MetadataTooLarge": (400, "the metadata are over the limit"),
}


class Refused(Exception):
    def __init__(self, code, **fields):
        super().__init__(code)
        self.code, self.fields = code, {name.replace("_", "-"): value for name, value in fields.items()}


class Unfinished(Exception):
    """The body ended otherwise than whole."""


def refuse(code, test=True, **fields):
    if test:
        raise Refused(code, **fields)


def digest_text(data):
    return base64.b64encode(hashlib.md5(data).digest()).decode()


def identifier(kind, number):
    # RFC 9562, version 8: the kind, then the number behind the bit of the variant.
    return str(uuid.UUID(int=(kind << 96) | (8 << 76) | (1 << 63) | number))


def etag(number):
    return identifier(1, number)


def http_date(moment):
    when = datetime.datetime(1970, 1, 1) + datetime.timedelta(seconds=moment)
    return email.utils.format_datetime(when.replace(tzinfo=datetime.timezone.utc), usegmt=True)


def read_date(text):
    """The moment of a date in one of the three forms of RFC 9110, section 5.6.7."""
    for form in ("%a, %d %b %Y %H:%M:%S GMT", "%A, %d-%b-%y %H:%M:%S GMT", "%a %b %d %H:%M:%S %Y"):
        try:
            return int((datetime.datetime.strptime(text, form) - datetime.datetime(1970, 1, 1)).total_seconds())
        except ValueError:
            pass
    return None


def iso_time(moment):
    return (datetime.datetime(1970, 1, 1) + datetime.timedelta(seconds=moment)).strftime("%Y-%m-%dT%H:%M:%S.000Z")


def decimal(text):
    return int(text) if text.isascii() and text.isdigit() and len(text) <= 19 else None


class Row:
    def __init__(self, mtime, body=None, number=None, content_type=None, durability=None, metadata=()):
        self.mtime, self.body, self.number = mtime, body, number
        self.content_type, self.durability, self.metadata = content_type, durability, metadata

    def is_object(self):
        return self.body is not None

    def fields(self):
        given = [("content-type", self.content_type), ("etag", etag(self.number)), ("last-modified", http_date(self.mtime))]
        given += [("durability-level", str(self.durability))] if self.durability else []
        return given + list(self.metadata)


class Head:
    """A request's head: its method, target, minor version and fields, names in lower case and values without outer blanks."""

    def __init__(self, text):
        lines = text.replace("\r\n", "\n").strip("\n").split("\n")
        self.method, self.target, version = lines[0].split(" ")
        self.minor = int(version[-1])
        pairs = [line.split(":", 1) for line in lines[1:]]
        self.fields = [(name.lower(), value.strip(" \t")) for name, value in pairs]

    def all(self, name):
        return [value for key, value in self.fields if key == name]

    def first(self, name):
        return next(iter(self.all(name)), None)

    def closes(self):
        words = [word.strip(" \t").lower() for value in self.all("connection") for word in value.split(",")]
        return self.minor == 0 or "close" in words


def read_path(login, target):
    """The area and the components that a target names."""
    text = target.split("?", 1)[0]
    refuse("BadRequest", not text.startswith("/"))
    pieces = [urllib.parse.unquote_to_bytes(piece) for piece in text.split("/") if piece]
    refuse("BadRequest", not pieces or sum(1 + len(piece) for piece in pieces[1:]) > MOST_PATH)
    for piece in pieces[2:]:
        try:
            piece.decode()
        except UnicodeDecodeError:
            refuse("BadRequest")
        is_name = 1 <= len(piece) <= MOST_NAME and piece not in (b".", b"..") and b"/" not in piece
        refuse("BadRequest", not is_name or any(byte < 32 or byte == 127 for byte in piece))
    refuse("Authorization", pieces[0] != login.encode())
    refuse("ResourceNotFound", len(pieces) < 2 or pieces[1] not in (b"stor", b"public", b"jobs"))
    return tuple(pieces[1:])


def methods_of(path):
    """The methods of a path; None of one that is for nothing."""
    if path[0] != b"jobs":
        return METHODS
    if path[2:3] != (b"live",):
        return "GET, HEAD" if path[1:] else "GET, HEAD, POST"
    live = {(b"in",): "GET, HEAD, POST", (b"in", b"end"): "POST", (b"cancel",): "POST"}
    live |= {(name,): "GET, HEAD" for name in (b"status", b"out", b"fail", b"err", b"tasks")}
    return live.get(path[3:])


def dumped(value):
    return json.dumps(value, separators=(",", ":"), sort_keys=True, ensure_ascii=False)


def read_text_path(login, text):
    """The path that a text names as it stands, or None."""
    if not text.startswith(("/", "~~/")):
        return None
    pieces = [piece.encode() for piece in text.split("/") if piece]
    if pieces and pieces[0] == b"~~":
        pieces[0] = login.encode()
    try:
        # the rules of a target, without decoding: what is escaped stays so
        return read_path(login, "/" + "/".join(urllib.parse.quote(piece, safe="") for piece in pieces))
    except Refused:
        return None


MOST_LINES, MOST_ASSET_BYTES, LONGEST_ROOT, MOST_NESTED = 1_000_000, 1 << 24, 200, 127
TEXT_TYPES = {"err": "application/x-json-stream", "fail": "text/plain", "in": "text/plain", "status": JSON, "out": "text/plain",
              "tasks": "application/x-json-stream"}
ARCHIVE = (("err", b"err.txt"), ("fail", b"fail.txt"), ("in", b"in.txt"), ("status", b"job.json"), ("out", b"out.txt"))


def depth(value):
    """How many lists and objects lie within each other."""
    inner = value.values() if isinstance(value, dict) else value if isinstance(value, list) else None
    return 0 if inner is None else 1 + max(map(depth, inner), default=0)


def read_document(login, body):
    """A job document: its name and its phases; the first fault refuses it."""
    def bad(test=True):
        refuse("InvalidJob", test)

    def whole(text):
        raise ValueError(text)

    try:
        value = json.loads(body.decode(), parse_constant=whole)
    except (ValueError, RecursionError):
        bad()
    bad(depth(value) > MOST_NESTED)
    bad(not isinstance(value, dict) or not isinstance(value.get("phases"), list) or not 1 <= len(value["phases"]) <= 16)
    is_line = lambda text, least: isinstance(text, str) and least <= len(text.encode()) <= 65_536 and "\0" not in text
    phases = []
    for phase in value["phases"]:
        bad(not isinstance(phase, dict) or phase.get("type", "map") not in ("map", "reduce"))
        bad(not is_line(phase.get("exec"), 1) or not is_line(phase.get("init", ""), 0))
        assets = phase.get("assets", [])
        bad(not isinstance(assets, list) or len(assets) > 64)
        names = [read_text_path(login, name) if isinstance(name, str) else None for name in assets]
        bad(None in names)
        reduces = phase.get("type") == "reduce"
        count = phase.get("count", 1) if reduces else None
        bad(reduces and (type(count) is not int or not 1 <= count <= 1_024))
        phases.append(Phase(count, phase["exec"], phase.get("init", ""), names))
    name = value.get("name")
    return (name if isinstance(name, str) and len(name.encode()) <= 1 << 24 else ""), phases


FAILURES = {
    "UserTaskError": "the command ended with a status other than 0",
    "TaskOutputTooLarge": "the task's output is over the limit",
    "TaskRecordError": "a helper's record is not whole",
    "TaskPlaceRefused": "an output's place cannot hold an object",
    "TaskObjectMissing": "a named object is not there",
}
Phase = collections.namedtuple("Phase", "count execute init assets")  # count is that of reducers; None of a map phase
Item = collections.namedtuple("Item", "name root body reducer")
Entry = collections.namedtuple("Entry", "phase place position items failure")  # a failure is its code, status and standard error


class Job:
    def __init__(self, number, moment, name, phases, assets=()):
        self.number, self.created, self.name, self.phases, self.assets = number, moment, name, phases, assets
        self.inputs, self.missing, self.ended, self.cancelled, self.done = [], [], False, False, None
        self.trace = []

    # What may run, and what it reads.
    def feed(self, phase):
        return self.inputs if phase == 0 else [item for entry in self.trace if entry.phase == phase - 1 for item in entry.items]

    def tasks_of(self, phase):
        count = self.phases[phase].count
        return len(self.feed(phase)) if count is None else count

    def reads(self, phase, place):
        feed, count = self.feed(phase), self.phases[phase].count
        if count is None:
            return feed[place:place + 1]
        return [item for k, item in enumerate(feed) if (k if item.reducer is None else item.reducer) % count == place]

    def is_complete(self, phase):
        return {entry.place for entry in self.trace if entry.phase == phase} >= set(range(self.tasks_of(phase)))

    def may_begin(self, phase):
        return self.phases[phase].count is None or self.ended and all(self.is_complete(before) for before in range(phase))

    def ready(self):
        """The phases and places of the ready tasks, in order."""
        if self.done is not None:
            return []
        committed = {(entry.phase, entry.place) for entry in self.trace}
        begun = [phase for phase in range(len(self.phases)) if self.may_begin(phase)]
        return [(phase, place) for phase in begun for place in range(self.tasks_of(phase)) if (phase, place) not in committed]

    def waits(self):
        return self.done is None and self.ended and all(self.is_complete(phase) for phase in range(len(self.phases)))

    def object_read(self, login, phase, place):
        return printed(login, self.feed(phase)[place].name) if self.phases[phase].count is None else None

    # Its texts.
    def error(self, login, entry):
        code, status, stderr = entry.failure
        said = {"code": code, "message": FAILURES[code], "phase": entry.phase, "status": status, "stderr": stderr.decode(errors="replace")}
        name = self.object_read(login, entry.phase, entry.place)
        return said | ({"reducer": entry.place} if name is None else {"input": name})

    def lines(self, login, text):
        missing = [line if isinstance(line, str) else printed(login, line) for line in self.missing]
        failed = [entry for entry in self.trace if entry.failure]
        if text == "in":
            return [printed(login, item.name) for item in self.inputs]
        if text == "out":
            return [printed(login, item.name) for item in self.feed(len(self.phases))]
        if text == "fail":
            names = [self.object_read(login, entry.phase, entry.place) for entry in failed]
            return missing + [name for name in names if name is not None]
        if text == "err":
            absent = [dumped({"code": "ResourceNotFound", "input": line, "message": "no such object", "phase": 0}) for line in missing]
            return absent + [dumped(self.error(login, entry)) for entry in failed]
        state = lambda entry: "failed" if entry.failure else "ok"
        return [dumped({"outputs": len(entry.items), "phase": entry.phase, "place": entry.place, "position": entry.position, "state": state(entry)})
                for entry in self.trace]

    def status(self, login):
        phases = []
        for count, execute, init, assets in self.phases:
            said = {"assets": [printed(login, path) for path in assets], "exec": execute, "type": "map" if count is None else "reduce"}
            said |= {"init": init} if init else {}
            phases.append(said | ({"count": count} if count is not None else {}))
        stats = {"errors": len(self.lines(login, "err")), "inputs": len(self.inputs), "outputs": len(self.feed(len(self.phases))), "tasksDone": len(self.trace)}
        return dumped({"cancelled": self.cancelled, "id": identifier(2, self.number), "inputDone": self.ended, "name": self.name, "phases": phases,
                       "state": "running" if self.done is None else "done", "stats": stats, "timeCreated": iso_time(self.created),
                       "timeDone": None if self.done is None else iso_time(self.done)})

    def text(self, login, text):
        return (self.status(login) if text == "status" else "".join(line + "\n" for line in self.lines(login, text))).encode()


def printed(login, path):
    return "/" + "/".join([login] + [part.decode() for part in path])


def first_of_query(head, name, absent):
    """The value of the first pair of a name in a query."""
    query = head.target.partition("?")[2]
    pairs = urllib.parse.parse_qsl(query, keep_blank_values=True, errors="replace")
    return next((value for key, value in pairs if key == name), absent)


def losing_refusal(head):
    """Of a PUT whose body is a part or a coding of what is to be stored, or which would change metadata alone."""
    refuse("BadRequest", head.first("content-range") is not None)
    refuse("BadRequest", any(value.replace(" ", "").replace("\t", "").lower() != "identity" for value in head.all("content-encoding")))
    refuse("InvalidArgument", first_of_query(head, "metadata", None) is not None)


class Conditions:
    """RFC 9110, section 13.2.2."""

    def __init__(self, head):
        self.match, self.none_match = self.tags(head, "if-match"), self.tags(head, "if-none-match")
        self.unmodified, self.modified = self.date(head, "if-unmodified-since"), self.date(head, "if-modified-since")

    @staticmethod
    def tags(head, name):
        values = head.all(name)
        if not values:
            return None
        whole = ",".join(values)
        if whole.strip(" \t") == "*":
            return "*"
        found = []
        for piece in (piece.strip(" \t") for piece in whole.split(",")):
            if piece:
                weak, tag = piece.startswith("W/"), piece[2:] if piece.startswith("W/") else piece
                quoted = len(tag) >= 2 and tag[0] == tag[-1] == '"'
                found.append((weak, tag[1:-1] if quoted else tag))
        return found

    @staticmethod
    def date(head, name):
        value = head.first(name)
        return None if value is None else read_date(value)

    def judge(self, row, is_read):
        there = row is not None and row.is_object()
        named = lambda tags, strong: there and (tags == "*" or any(tag == etag(row.number) and not (strong and weak) for weak, tag in tags))
        if self.match is not None:
            refuse("PreconditionFailed", not named(self.match, True))
        elif self.unmodified is not None:
            refuse("PreconditionFailed", there and row.mtime > self.unmodified)
        if self.none_match is not None:
            news = not named(self.none_match, False)
        else:
            news = not (is_read and self.modified is not None and there and row.mtime <= self.modified)
        refuse("PreconditionFailed", not news and not is_read)
        return news


def read_range(head, size):
    """The part that a Range field asks for: None for the whole object."""
    value = head.first("range")
    if value is None or head.first("if-range") is not None or not value.startswith("bytes=") or "-" not in value:
        return None
    before, behind = value[6:].split("-", 1)
    first, last = decimal(before), decimal(behind)
    if before and behind and (first is None or last is None or first > last):
        return None
    if (before and first is None) or (behind and last is None) or not (before or behind):
        return None
    if not before:
        if last and not size:
            return None
        refuse("RangeNotSatisfiable", last == 0, content_range=f"bytes */{size}")
        return max(size - last, 0), size
    refuse("RangeNotSatisfiable", first >= size, content_range=f"bytes */{size}")
    return first, min(last + 1, size) if behind else size


class Body:
    """What stands behind a head: the bytes of a body, how it ended, and what follows it."""

    def __init__(self, head, rest):
        most = (1 << 30) if head.method == "PUT" else (1 << 24)
        self.data, self.end = b"", "Whole"
        if head.first("transfer-encoding") is not None:
            self.chunks(rest, most)
            return
        length = int(head.first("content-length") or 0)
        if length > most:
            self.end = "TooLarge"
        else:
            self.data = rest[:length]
            self.end = "Whole" if len(rest) >= length else "Truncated"

    def chunks(self, rest, most):
        total = 0
        while True:
            line, found, rest = rest.partition(b"\n")
            if not found:
                self.end = "Bad" if len(line) > 255 else "Truncated"
                return
            try:
                size = int(line.split(b";")[0].strip(), 16)
            except ValueError:
                self.end = "Bad"
                return
            total += size
            if total > most:
                self.end = "TooLarge"
                return
            if size == 0:
                while rest and not rest.startswith((b"\r\n", b"\n")):
                    rest = rest.partition(b"\n")[2]
                self.end = "Whole" if rest else "Truncated"
                return
            self.data += rest[:size]
            if len(rest) < size + 2:
                self.end = "Truncated" if rest[size:] in (b"", b"\r") else "Bad"
                return
            if rest[size:size + 2] != b"\r\n":
                self.end = "Bad"
                return
            rest = rest[size + 2:]


def pieces_size(n):
    return n + 22 * -(-n // PIECE)


class Store:
    """The account, and how many bytes its log has."""

    def __init__(self, login="l", limit=1 << 30):
        self.login, self.limit, self.used, self.count, self.moment = login, limit, 9, 0, 0
        self.jobs = {}
        self.rows = {(area,): Row(0) for area in (b"stor", b"public", b"jobs")}

    # What stands at a path.
    def children(self, path):
        return sorted(p[-1] for p in self.rows if len(p) == len(path) + 1 and p[:-1] == path)

    def parent_refusal(self, path):
        parent = self.rows.get(path[:-1])
        refuse("DirectoryDoesNotExist", parent is None)
        refuse("ParentNotDirectory", parent.is_object())

    def put_refusal(self, path):
        refuse("RootDirectory", len(path) == 1)
        self.parent_refusal(path)
        refuse("DirectoryOperation", path in self.rows and not self.rows[path].is_object())

    # Commands in the log: their sizes, by the table of docs/proof/FORMATS.md.
    def path_bytes(self, path):
        return struct.pack(">BH", 0, len(path) - 1) + b"".join(struct.pack(">H", len(part)) + part for part in path[1:])

    def accept(self, command, stored=0):
        """Takes a command behind a body of so many bytes, where the log has room for both."""
        if not self.has_room(pieces_size(stored), len(command)):
            self.leave(stored)
            raise Refused("NotEnoughSpace")
        self.count += 1

    def leave(self, stored):
        """The pieces of a body that have room stay."""
        if self.used + pieces_size(stored) <= self.limit:
            self.used += pieces_size(stored)
        else:
            self.used += (PIECE + 22) * max(0, (self.limit - self.used) // (PIECE + 22))

    # A request and its answer.
    def ask(self, request, head_only=None):
        text, _, rest = request.partition(b"\r\n\r\n")
        head = Head(text.decode("latin-1"))
        body = Body(head, rest)
        try:
            status, fields, data = self.answer(head, body)
        except Refused as why:
            status, words = ERRORS[why.code]
            data = json.dumps({"code": why.code, "message": words}, separators=(",", ":"), sort_keys=True).encode()
            fields = [("content-type", JSON), *why.fields.items()]
        fields = list(fields) + [("date", http_date(self.moment)), ("x-marlin-position", str(self.count))]
        fields += [("content-length", str(len(data)))] if status not in (204, 304) else []
        fields += [("connection", "close")] if head.closes() else []
        lines = [f"HTTP/1.1 {status} {PHRASES[status]}"] + [f"{name}: {value}" for name, value in sorted(fields, key=lambda field: field[0])]
        out = "".join(line + "\r\n" for line in lines + [""]).encode("latin-1")
        return out + (b"" if status in (204, 304) or head.method == "HEAD" else data)

    def digest_refusal(self, head, data):
        """Of the head alone where the body is not there yet."""
        wish = head.first("content-md5")
        if wish is None:
            return
        try:
            wanted = base64.b64decode(wish, validate=True)
        except ValueError:
            wanted = b""
        refuse("ContentMD5Mismatch", len(wanted) != 16 or base64.b64encode(wanted).decode() != wish)
        refuse("ContentMD5Mismatch", data is not None and wanted != hashlib.md5(data).digest())

    def answer(self, head, body):
        doing, path = None, None
        try:
            path = read_path(self.login, head.target)
            methods = methods_of(path)
            refuse("ResourceNotFound", methods is None)
            refuse("MethodNotAllowed", head.method not in methods.split(", "), allow=methods)
            refuse("OriginRefused", head.first("service-worker") is not None or head.method not in ("GET", "HEAD") and head.first("origin") is not None)
            state = first_of_query(head, "state", None) if path == (b"jobs",) and head.method != "POST" else None
            of_jobs = path[2:3] == (b"live",) and path[0] == b"jobs" or path == (b"jobs",) and head.method == "POST" or state in ("running", "done")
        except Refused:
            self.must_be_whole(body)
            raise
        if of_jobs:
            self.must_be_whole(body)
            self.digest_refusal(head, body.data)
            return self.ask_jobs(head, path, state, body.data)
        kind = (head.first("content-type") or "").replace(" ", "").replace("\t", "").lower()
        if head.method != "PUT":
            self.must_be_whole(body)
            self.digest_refusal(head, body.data)
            refuse("BadRequest", state is not None)
            doing = self.remove if head.method == "DELETE" else self.look
            return doing(head, path)
        if kind in ("application/json;type=directory", "application/x-json-stream;type=directory"):
            self.must_be_whole(body)
            self.digest_refusal(head, body.data)
            losing_refusal(head)
            return self.put_directory(head, path)
        if kind == "application/json;type=link":
            self.must_be_whole(body)
            self.digest_refusal(head, body.data)
            losing_refusal(head)
            return self.put_link(head, path)
        return self.put_object(head, path, body)

    def must_be_whole(self, body, stored=0):
        if body.end != "Whole":
            self.leave(stored)
            raise Unfinished(body.end)

    def put_object(self, head, path, body):
        try:
            self.digest_refusal(head, None)
            losing_refusal(head)
            content_type, durability, metadata = self.marks(head)
            self.put_refusal(path)
            Conditions(head).judge(self.rows.get(path), False)
        except Refused:
            self.must_be_whole(body)
            self.digest_refusal(head, body.data)
            raise
        self.must_be_whole(body, len(body.data))
        try:
            self.digest_refusal(head, body.data)
        except Refused:
            self.leave(len(body.data))
            raise
        marked = durability or metadata
        command = struct.pack(">BQ", 11 if marked else 1, self.moment) + self.path_bytes(path)
        command += struct.pack(">H", len(content_type)) + content_type.encode("latin-1")
        if marked:
            command += struct.pack(">BB", 1, durability) if durability else b"\0"
            command += struct.pack(">B", len(metadata))
            for name, value in metadata:
                command += struct.pack(">H", len(name)) + name.encode() + struct.pack(">H", len(value)) + value.encode("latin-1")
        self.accept(command + bytes(16), len(body.data))
        row = Row(self.moment, body.data, (self.count - 1) * 4_096, content_type, durability, metadata)
        self.rows[path] = row
        return 204, self.stored_fields(row), b""

    def marks(self, head):
        content_type = head.first("content-type")
        content_type = "application/octet-stream" if content_type is None else content_type
        clean = lambda text: all(32 <= ord(c) <= 126 for c in text)
        refuse("BadRequest", not clean(content_type) or len(content_type) > 255)
        metadata = sorted(((n, v) for n, v in head.fields if n.startswith("m-")), key=lambda field: field[0])
        refuse("BadRequest", any(not clean(value) for _, value in metadata))
        level = head.first("durability-level")
        durability = None if level is None else decimal(level)
        refuse("InvalidDurabilityLevel", level is not None and (durability is None or not 1 <= durability <= 6))
        refuse("MetadataTooLarge", sum(len(n) + len(v) for n, v in metadata) > 4_096)
        return content_type, durability, metadata

    def stored_fields(self, row):
        return [("computed-md5", digest_text(row.body)), ("etag", etag(row.number)), ("last-modified", http_date(row.mtime))]

    def put_directory(self, head, path):
        row = self.rows.get(path)
        if row is not None:
            refuse("EntityExists", row.is_object())
            return 204, [], b""
        self.parent_refusal(path)
        self.accept(struct.pack(">BQ", 2, self.moment) + self.path_bytes(path))
        self.rows[path] = Row(self.moment)
        return 204, [], b""

    def put_link(self, head, path):
        location = head.first("location")
        refuse("LinkRequired", location is None)
        source = read_path(self.login, location)
        row = self.rows.get(source)
        refuse("LinkNotFound", row is None)
        refuse("LinkNotObject", not row.is_object())
        self.put_refusal(path)
        Conditions(head).judge(self.rows.get(path), False)
        self.accept(struct.pack(">BQ", 3, self.moment) + self.path_bytes(path) + self.path_bytes(source))
        self.rows[path] = Row(self.moment, row.body, row.number, row.content_type, row.durability, row.metadata)
        return 204, self.stored_fields(self.rows[path]), b""

    def remove(self, head, path):
        refuse("RootDirectory", len(path) == 1)
        row = self.rows.get(path)
        refuse("ResourceNotFound", row is None)
        refuse("DirectoryNotEmpty", bool(self.children(path)))
        if row.is_object():
            Conditions(head).judge(row, False)
        self.accept(struct.pack(">BQ", 4, self.moment) + self.path_bytes(path))
        del self.rows[path]
        return 204, [], b""

    def look(self, head, path):
        row = self.rows.get(path)
        if row is None or not row.is_object():
            limit, marker = self.page(head)
            refuse("ResourceNotFound", row is None)
            names = self.children(path)
            text = "".join(self.line(path + (name,)) for name in [name for name in names if name >= marker][:limit])
            return 200, [("content-type", PAGE_TYPE), ("result-set-size", str(len(names)))], text.encode()
        if not Conditions(head).judge(row, True):
            return 304, [("etag", etag(row.number)), ("last-modified", http_date(row.mtime))], b""
        part = read_range(head, len(row.body)) if head.method == "GET" else None
        if part is None:
            return 200, row.fields() + [("content-md5", digest_text(row.body))], row.body
        first, to = part
        return 206, row.fields() + [("content-range", f"bytes {first}-{to - 1}/{len(row.body)}")], row.body[first:to]

    def page(self, head):
        limit = decimal(first_of_query(head, "limit", "256"))
        refuse("InvalidLimit", limit is None or not 1 <= limit <= 1_024)
        return limit, first_of_query(head, "marker", "").encode()

    def line(self, path):
        row, name = self.rows[path], path[-1].decode()
        said = {"name": name, "mtime": iso_time(row.mtime), "type": "directory"}
        if row.is_object():
            said |= {"etag": etag(row.number), "size": len(row.body), "type": "object"}
        return json.dumps(said, separators=(",", ":"), sort_keys=True, ensure_ascii=False) + "\n"

    # What is asked of jobs. Their tasks run where `turns.py` takes turns; else a job ends by being cancelled.
    def ask_jobs(self, head, path, state, data):
        if state is not None:
            return self.list_jobs(head, state)
        if len(path) == 1:
            return self.make_job(data)
        route, posts = path[3:], head.method == "POST"
        if route == (b"in",) and posts:
            return self.add_lines(path[1], data)
        job = self.job_at(path[1])
        if route == (b"in", b"end"):
            self.input_refusal(job)
            self.accept(bytes(17))
            job.ended = True
            return 202, [], b""
        if route == (b"cancel",):
            return self.cancel_job(job)
        text = route[0].decode()
        count = [] if text == "status" else [("result-set-size", str(len(job.lines(self.login, text))))]
        return 200, [("content-type", TEXT_TYPES[text]), *count], job.text(self.login, text)

    def job_at(self, name):
        job = self.jobs.get(name)
        refuse("JobNotFound", job is None)
        return job

    def input_refusal(self, job):
        refuse("JobState", job.done is not None or job.ended)

    def list_jobs(self, head, state):
        limit, marker = self.page(head)
        jobs = [(name, job) for name, job in sorted(self.jobs.items()) if (job.done is None) == (state == "running")]
        text = "".join(self.line((b"jobs", name)) for name, _ in [found for found in jobs if found[0] >= marker][:limit])
        return 200, [("content-type", PAGE_TYPE), ("result-set-size", str(len(jobs)))], text.encode()

    def make_job(self, data):
        name, phases = read_document(self.login, data)
        found = [[self.rows.get(path) for path in assets] for *_, assets in phases]
        refuse("ResourceNotFound", any(row is None or not row.is_object() for rows in found for row in rows))
        refuse("InvalidJob", any(sum(len(row.body) for row in rows) > MOST_ASSET_BYTES for rows in found))
        sized = lambda text: struct.pack(">I", len(text.encode())) + text.encode()
        command = struct.pack(">BQ", 5, self.moment) + sized(name) + struct.pack(">B", len(phases))
        for count, execute, init, assets in phases:
            command += (b"\0" if count is None else struct.pack(">BI", 1, count)) + sized(execute)
            command += (b"\1" + sized(init) if init else b"\0") + struct.pack(">B", len(assets))
            command += b"".join(self.path_bytes(path) for path in assets)
        number = self.count * 4_096
        self.accept(command)
        job = Job(number, self.moment, name, phases, [[row.body for row in rows] for rows in found])
        folder = identifier(2, number).encode()
        self.jobs[folder] = job
        self.rows[(b"jobs", folder)] = self.rows[(b"jobs", folder, b"stor")] = Row(self.moment)
        return 201, [("location", printed(self.login, (b"jobs", folder)))], b""

    def add_lines(self, name, data):
        try:
            pieces = data.decode().split("\n")
        except UnicodeDecodeError:
            refuse("BadRequest")
        lines = [piece[:-1] if piece.endswith("\r") else piece for piece in pieces[:-1]] + pieces[-1:]
        lines = [line for line in lines if line]
        job = self.job_at(name)
        self.input_refusal(job)
        refuse("InvalidArgument", len(job.inputs) + len(job.missing) + len(lines) > MOST_LINES)
        named = [(read_text_path(self.login, line), line) for line in lines]
        spelled = lambda path, line: b"\0" + self.path_bytes(path) if path else struct.pack(">BI", 1, len(line.encode())) + line.encode()
        command = struct.pack(">BQQI", 6, self.moment, job.number, len(lines))
        self.accept(command + b"".join(spelled(path, line) for path, line in named))
        for path, line in named:
            row = self.rows.get(path) if path else None
            if row is not None and row.is_object():
                job.inputs.append(Item(path, path[-1] if len(path[-1]) <= LONGEST_ROOT else b"input", row.body, None))
            else:
                job.missing.append(path or line)
        return 204, [], b""

    def cancel_job(self, job):
        refuse("JobState", job.done is not None)
        refuse("NotEnoughSpace", not self.close(job, True))
        return 202, [], b""

    def close(self, job, cancelled):
        """Ends a job, with its five texts, where the log has room for them."""
        before, job.cancelled, job.done = job.cancelled, cancelled, self.moment
        texts = [(name, kind, job.text(self.login, kind)) for kind, name in ARCHIVE]
        if not self.has_room(sum(pieces_size(len(text)) for *_, text in texts), 98):
            job.cancelled, job.done = before, None
            return False
        folder = identifier(2, job.number).encode()
        for index, (name, kind, text) in enumerate(texts):
            self.rows[(b"jobs", folder, name)] = Row(self.moment, text, self.count * 4_096 + index, TEXT_TYPES[kind])
        self.count += 1
        return True

    def has_room(self, pieces, size):
        """Takes the room of a command of so many bytes behind its pieces, where the log has it; else not one byte."""
        growth = pieces + 21 + size
        if self.used + growth > self.limit:
            return False
        self.used += growth
        return True
