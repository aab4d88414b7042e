#!/usr/bin/env python3
"""Prints the table of job_rows with the wanted answers: documents are judged by Python's json, lines by its hashlib,
tasks by plain lists, records by its struct."""
import datetime
import hashlib
import json
import random
import re
import struct


def escaped(data):
    out = []
    for b in data:
        out.append({9: "\\t", 10: "\\n", 13: "\\r", 92: "\\x5c"}.get(b) or (chr(b) if 32 <= b <= 126 else f"\\x{b:02x}"))
    return "".join(out)


def answered(data):
    """Bytes of an answer: a blank at the end is shown."""
    text = escaped(data)
    return text[:-1] + "\\s" if text.endswith(" ") else text


def word(data):
    """Bytes as a word: a run of more than 40 times one byte is said as such."""
    runs = re.sub(r"((\w)\2{40,})", lambda it: f"\\*{len(it[1])}.{it[2]}", escaped(data).replace(" ", "\\s"))
    return runs or "\\e"


def row(call, answer):
    print(f"{call:<48} => {answer}" if answer else f"{call}")


class Whole(int):
    """A number without sign, point and exponent."""


class Refused(Exception):
    pass


def number(text):
    if abs(float(text)) == float("inf"):
        raise ValueError("too large")
    return Whole(text) if text.isdigit() and int(text) < 2**64 else float(text)


def refuse(text):
    raise ValueError(text)


def depth(value):
    if isinstance(value, dict):
        return 1 + max(map(depth, value.values()), default=0)
    if isinstance(value, list):
        return 1 + max(map(depth, value), default=0)
    return 0


def read_json(data):
    try:
        value = json.loads(data.decode("utf-8"), parse_int=number, parse_float=number, parse_constant=refuse)
        json.dumps(value, ensure_ascii=False).encode("utf-8")  # a lone surrogate is no text
    except (ValueError, RecursionError):
        return None
    return value if depth(value) <= 127 else None


def is_component(name):
    return 1 <= len(name.encode()) <= 255 and name not in (".", "..") and all(ord(c) >= 32 and c not in "/\x7f" for c in name)


def path(text):
    """The path that a text names, printed, or None."""
    if not (text.startswith("/") or text.startswith("~~/")):
        return None
    pieces = [it for it in text.split("/") if it]
    if not pieces:
        return None
    if pieces[0] == "~~":
        pieces[0] = "l"
    if len("".join("/" + it for it in pieces[1:]).encode()) > 1024 or not all(map(is_component, pieces[2:])):
        return None
    if pieces[0] != "l" or len(pieces) < 2 or pieces[1] not in ("stor", "public", "jobs"):
        return None
    return "/" + "/".join(pieces)


def is_command(text):
    return isinstance(text, str) and 1 <= len(text.encode()) <= 65536 and "\0" not in text


def phase(k, value):
    bad = Refused(f"BadPhase({k})")
    if not isinstance(value, dict):
        raise bad
    kind = value.get("type", "map")
    init = value.get("init", "")
    assets = value.get("assets", [])
    if kind not in ("map", "reduce") or not is_command(value.get("exec")) or not (init == "" or is_command(init)):
        raise bad
    if not isinstance(assets, list) or len(assets) > 64:
        raise bad
    names = [path(it) if isinstance(it, str) else None for it in assets]
    if None in names:
        raise bad
    text = "; map "
    if kind == "reduce":
        count = value.get("count", Whole(1))
        if not isinstance(count, Whole) or not 1 <= count <= 1024:
            raise Refused(f"BadCount({k})")
        text = f"; reduce {int(count)} "
    text += escaped(value["exec"].encode()) + (", init " + escaped(init.encode()) if init else "")
    return text + "".join(", " + escaped(it.encode()) for it in names)


def judged(data):
    value = read_json(data)
    if not isinstance(value, dict):
        return "NotJson"
    phases = value.get("phases")
    if not isinstance(phases, list) or not phases:
        return "NoPhases"
    if len(phases) > 16:
        return "TooManyPhases"
    name = value.get("name", "")
    try:
        return "job " + escaped((name if isinstance(name, str) else "").encode()) + "".join(phase(k, it) for k, it in enumerate(phases))
    except Refused as why:
        return str(why)


def printed(data):
    out = []
    for value in read_json(data)["phases"]:
        kind = value.get("type", "map")
        shown = {"assets": [path(it) for it in value.get("assets", [])], "exec": value["exec"], "type": kind}
        if kind == "reduce":
            shown["count"] = int(value.get("count", 1))
        if value.get("init"):
            shown["init"] = value["init"]
        out.append(shown)
    return json.dumps(out, sort_keys=True, separators=(",", ":"), ensure_ascii=False)


def document(text):
    data = text.encode()
    plain = all(32 <= b <= 126 for b in data) and "=>" not in text and "\\" not in text and text.strip() == text and text
    call = f"document {text}" if plain else f"document-bytes {word(data)}"
    answer = judged(data)
    row(call, answer[:-1] + "\\s" if answer.endswith(" ") else answer)


BY_HAND = [
    '{"phases":[{"exec":"cat"}]}', '{"name":"count","phases":[{"exec":"wc"},{"type":"reduce","exec":"sort","count":3}]}',
    '', ' ', 'null', '[]', '"x"', '1', '{', '{}', '{"phases":null}', '{"phases":{}}', '{"phases":[]}', '{"phases":"x"}', '{"phase":[{"exec":"x"}]}',
    '{"phases":[1]}', '{"phases":[null]}', '{"phases":[[]]}', '{"phases":[{}]}', '{"phases":[{"exec":null}]}', '{"phases":[{"exec":""}]}',
    '{"phases":[{"exec":7}]}', '{"phases":[{"exec":"a\\u0000b"}]}', '{"phases":[{"exec":"x","type":null}]}', '{"phases":[{"exec":"x","type":"Map"}]}',
    '{"phases":[{"exec":"x","type":"map","count":0}]}', '{"phases":[{"exec":"x","type":"reduce"}]}', '{"phases":[{"exec":"x","type":"reduce","count":0}]}',
    '{"phases":[{"exec":"x","type":"reduce","count":1}]}', '{"phases":[{"exec":"x","type":"reduce","count":1024}]}',
    '{"phases":[{"exec":"x","type":"reduce","count":1025}]}', '{"phases":[{"exec":"x","type":"reduce","count":2.0}]}',
    '{"phases":[{"exec":"x","type":"reduce","count":2e0}]}', '{"phases":[{"exec":"x","type":"reduce","count":-1}]}',
    '{"phases":[{"exec":"x","type":"reduce","count":-0}]}', '{"phases":[{"exec":"x","type":"reduce","count":"3"}]}',
    '{"phases":[{"exec":"x","type":"reduce","count":null}]}', '{"phases":[{"exec":"x","type":"reduce","count":18446744073709551616}]}',
    '{"phases":[{"exec":"x","type":"reduce","count":4294967297}]}', '{"phases":[{"exec":"x","count":1e400}]}', '{"phases":[{"exec":"x","count":01}]}',
    '{"phases":[{"exec":"x","init":""}]}', '{"phases":[{"exec":"x","init":"y z"}]}', '{"phases":[{"exec":"x","init":null}]}',
    '{"phases":[{"exec":"x","init":"\\u0000"}]}', '{"phases":[{"exec":"x","assets":null}]}', '{"phases":[{"exec":"x","assets":[]}]}',
    '{"phases":[{"exec":"x","assets":["/l/stor/a","~~/public/b//c"]}]}', '{"phases":[{"exec":"x","assets":["/m/stor/a"]}]}',
    '{"phases":[{"exec":"x","assets":["l/stor/a"]}]}', '{"phases":[{"exec":"x","assets":["/l/other/a"]}]}', '{"phases":[{"exec":"x","assets":["/l/stor/%41"]}]}',
    '{"phases":[{"exec":"x","assets":["/l/stor/.."]}]}', '{"phases":[{"exec":"x","assets":[1]}]}', '{"phases":[{"exec":"x","assets":"/l/stor/a"}]}',
    '{"phases":[{"exec":"x","assets":["/l/stor"]}]}', '{"phases":[{"exec":"x","type":"reduce","count":0,"init":7}]}',
    '{"phases":[{"exec":"x"},{"exec":"","type":"reduce","count":0}]}', '{"phases":[{"exec":"x","type":"reduce","count":0},{}]}',
    '{"phases":[{"exec":"a","exec":"b"}]}', '{"phases":[{"exec":"x"}],"phases":[]}', '{"name":7,"phases":[{"exec":"x"}]}', '{"name":null,"phases":[{"exec":"x"}]}',
    '{"name":"a b","phases":[{"exec":"x"}],"more":[true,false,{"a":-1.5e3}]}', '\ufeff{"phases":[{"exec":"x"}]}', ' {"phases":[{"exec":"x"}]} ',
    '{"phases":[{"exec":"x"},]}', '{"phases":[{"exec":"x"}]} {}', "{'phases':[{'exec':'x'}]}", '{"phases":[{"exec":"x\ty"}]}', '{"phases":[{"exec":"x\\ty"}]}',
    '{"phases":[{"exec":"\\u00e9\\ud83d\\ude00"}]}', '{"phases":[{"exec":"\\ud83d"}]}', '{"phases":[{"exec":"é"}]}', '{"phases":[{"exec":"\\q"}]}',
    '{"phases":[{"exec":"a\\/b\\"c\\\\d"}]}', '{"phases":[{"exec":NaN}]}', '{"phases":[{"exec":"x","count":Infinity}]}', '{"phases":[{"exec":"x","count":+1}]}',
]


def generated(count):
    """Documents of parts that are chosen, with a seed."""
    pick = random.Random(2026).choice
    for _ in range(count):
        phases = []
        for _ in range(pick([1, 1, 1, 2, 3])):
            fields = {"exec": pick(['"x"', '"x"', '"x"', '"wc -l"', '""', 'null', '[]'])}
            if pick([0, 1]):
                fields["type"] = pick(['"map"', '"reduce"', '"reduce"', '"reduce"', '"filter"', 'true'])
            if pick([0, 1]):
                fields["count"] = pick(["1", "2", "16", "1024", "0", "1025", "1.0", "1E1", "-2", '"1"', "[]", "99999999999999999999"])
            if pick([0, 0, 1]):
                fields["init"] = pick(['"y"', '""', "0", "null", '"a b"'])
            if pick([0, 0, 1]):
                fields["assets"] = pick(["[]", '["/l/stor/a"]', '["~~/stor/a","/l/jobs/b"]', '["/l"]', '[""]', "{}", '["/l/stor/a",null]'])
            keys = sorted(fields, key=lambda _: pick(range(9)))
            phases.append(pick(["{%s}"] * 9 + ["[%s]", "%s"]) % ",".join(f'"{it}":{fields[it]}' for it in keys))
        name = pick(["", "", '"name":"n",', '"name":[],', '"other":0,'])
        yield "{%s%s:[%s]}" % (name, pick(['"phases"'] * 9 + ["phases"]), pick([",", ",", ","]).join(phases))


def route(key, n):
    return int.from_bytes(hashlib.md5(key).digest()[:4], "big") % n


def lines(text):
    return text.splitlines(keepends=True) if b"\r" not in text else [it + b"\n" for it in text.split(b"\n")[:-1]] + ([text.split(b"\n")[-1]] if text.split(b"\n")[-1] else [])


def key(line, delimiter=None, numbers=()):
    content = line[:-1] if line.endswith(b"\n") else line
    if delimiter is None:
        return content
    fields = content.split(delimiter)
    return delimiter.join(fields[n - 1] if 1 <= n <= len(fields) else b"" for n in numbers)


def key_row(line, delimiter=None, numbers=()):
    words = [] if delimiter is None else [word(delimiter), *map(str, numbers)]
    row(" ".join(["key", word(line), *words]), answered(key(line, delimiter, numbers)))


def split_row(n, text, delimiter=None, numbers=()):
    words = [] if delimiter is None else [word(delimiter), *map(str, numbers)]
    parts = [b"".join(it for it in lines(text) if route(key(it, delimiter, numbers), n) == r) for r in range(n)]
    row(" ".join(["split", str(n), word(text), *words]), "".join(f"[{escaped(it)}]" for it in parts))


class Job:
    """A job as plain lists: the items that were fed to each phase, and the tasks that are committed."""

    def __init__(self, kinds):
        self.kinds, self.fed, self.done, self.ended = kinds, [0] * len(kinds), set(), False

    def places(self, p):
        return self.fed[p] if self.kinds[p] == "map" else self.kinds[p]

    def complete(self, phases):
        return all((p, k) in self.done for p in range(phases) for k in range(self.places(p)))

    def is_place(self, p, k):
        return p < len(self.kinds) and k < self.places(p)

    def is_task(self, p, k):
        return self.is_place(p, k) and (self.kinds[p] == "map" or self.ended and self.complete(p))

    def ready(self):
        return [(p, k) for p in range(len(self.kinds)) for k in range(self.places(p)) if self.is_task(p, k) and (p, k) not in self.done]

    def waits(self):
        return self.ended and self.complete(len(self.kinds))


class Queues:
    def __init__(self):
        self.jobs, self.made = {}, 0

    def next(self, skip=()):
        tasks = [(j, *t) for j in sorted(self.jobs) for t in self.jobs[j].ready() if (j, *t) not in skip]
        waiting = [j for j in sorted(self.jobs) if self.jobs[j].waits()]
        return (" ".join(map(str, tasks[0])) if tasks else "-") + (f", {waiting[0]} waits" if waiting else "")

    def change(self, call, *words):
        job = self.jobs.get(words[0]) if words else None
        if call == "add":
            self.jobs[self.made] = Job(list(words))
            self.made += 1
        elif call == "remove":
            self.jobs.pop(words[0], None)
        elif job and call == "end":
            job.ended = True
        elif job and call == "feed" and words[1] < len(job.kinds):
            job.fed[words[1]] += 1
        elif job and call == "commit" and job.is_place(*words[1:]):
            job.done.add(words[1:])

    def facts(self, j, p, k):
        job = self.jobs.get(j)
        if not job:
            return "none"
        holds = (job.is_task(p, k), job.is_place(p, k) and (p, k) in job.done, (p, k) in job.ready(), job.complete(len(job.kinds)))
        return "".join(mark if it else "-" for mark, it in zip("TCRA", holds))

    def play(self, text):
        call, *words = text.split()
        words = [int(it) if it.isdigit() else it for it in words]
        if call == "next":
            row(text, self.next({tuple(words[i:i + 3]) for i in range(0, len(words), 3)}))
        elif call == "task":
            row(text, self.facts(*words))
        else:
            self.change(call, *words)
            row(text, self.next())


BY_STEPS = (
    ("One map phase: each item that is fed is a task.",
     "next, feed 0 0, add map, feed 0 0, feed 0 0, next 0 0 0, next 0 0 0 0 0 1, task 0 0 0, task 0 0 2, commit 0 0 0, task 0 0 0, commit 0 0 0, commit 0 0 7, feed 0 0, next 0 0 1,"
     "commit 0 0 1, commit 0 0 2, task 0 0 2, end 0, feed 0 0, commit 0 0 3, remove 0, task 0 0 0, remove 0, commit 0 0 0, end 0"),
    ("Reducers wait for the end of the input and for all earlier phases, and need no item.",
     "add 2, task 1 0 0, next, end 1, task 1 0 0, commit 1 0 0, commit 1 0 1, remove 1, add map 2, feed 2 0, commit 2 0 0, feed 2 1, task 2 1 0, end 2, task 2 1 0, feed 2 0, task 2 1 0, commit 2 0 1, task 2 1 1,"
     "next 2 1 0, commit 2 1 1, task 2 1 1, task 2 1 2, commit 2 1 0"),
    ("A later map phase is fed by what is committed; a phase that is not there takes nothing.",
     "add map map 1, feed 3 0, feed 3 0, commit 3 0 1, feed 3 1, next, next 3 0 0, commit 3 1 0, end 3, commit 3 0 0, feed 3 1, feed 3 1, next 3 1 1, commit 3 1 2, commit 3 1 1, feed 3 2, task 3 2 0, task 3 2 1,"
     "feed 3 3, task 3 3 0, commit 3 3 0, commit 3 2 0, remove 2, remove 3"),
    ("By job, by phase and then by place; the first job that waits.",
     "add map, add map map, add 1, feed 5 1, feed 5 0, end 6, feed 4 0, next 4 0 0, next 4 0 0 5 0 0, next 4 0 0 5 0 0 5 1 0, next 4 0 0 5 0 0 5 1 0 6 0 0, commit 6 0 0, commit 4 0 0, end 4, remove 4, remove 6, remove 5"),
    ("No phase: it waits once its input has ended.", "add, next, end 7, remove 7"),
)


def chosen(queues, count):
    """Changes and looks that are chosen, with a seed."""
    chance = random.Random(2027)
    for _ in range(3):
        queues.play(" ".join(["add"] + [str(chance.choice(["map", "map", 1, 2])) for _ in range(3)]))
    for _ in range(count):
        ready = [(j, *t) for j in sorted(queues.jobs) for t in queues.jobs[j].ready()]
        waiting = [j for j in sorted(queues.jobs) if queues.jobs[j].waits()]
        job = chance.choice([*queues.jobs, *queues.jobs, queues.made])
        place = f"{job} {chance.randrange(3)} {chance.randrange(4)}"
        step = chance.choice(["feed"] * 6 + ["done"] * 3 + ["commit", "end", "next", "next", "task", "task", "remove"])
        if step == "done" and ready:
            queues.play("commit %d %d %d" % chance.choice(ready))
        elif step == "next":
            queues.play(" ".join(["next"] + ["%d %d %d" % it for it in ready[:chance.randrange(5)]]))
        elif step == "remove" and waiting:
            queues.play(f"remove {chance.choice(waiting)}")
            queues.play(" ".join(["add"] + [str(chance.choice(["map", "map", 1, 2])) for _ in range(chance.randrange(1, 4))]))
        elif step == "end":
            queues.play(f"end {job}")
        else:
            queues.play(f"feed {place[:-2]}" if step == "feed" else f"{'task' if step == 'task' else 'commit'} {place}")


# ---- records (mt_records), laid out by struct

def text_field(data):
    return struct.pack(">H", len(data)) + data


def emit(place=None, reducer=None):
    flags = b"\0" if place is None else b"\1" + text_field(place)
    return b"\1" + flags + (b"\0" if reducer is None else b"\1" + struct.pack(">I", reducer))


def keep(place):
    return b"\2" + text_field(place)


def ref(name):
    return b"\3" + text_field(name)


def ended(head, body=b""):
    return head + body + b"MREC" + struct.pack(">Q", len(body))


class Cut(Exception):
    pass


def head_in(data):
    """The fields of a head, each byte of it; none where it is none."""
    at = 0

    def take(n):
        nonlocal at
        if at + n > len(data):
            raise Cut
        at += n
        return data[at - n:at]

    def text():
        piece = take(struct.unpack(">H", take(2))[0])
        if len(piece) > 1200:
            raise Cut
        piece.decode("utf-8")
        return piece

    def optional(read):
        flag = take(1)
        if flag not in (b"\0", b"\1"):
            raise Cut
        return read() if flag == b"\1" else None

    try:
        kind = take(1)[0]
        if kind == 1:
            found = ("emit", optional(text), optional(lambda: struct.unpack(">I", take(4))[0]))
        elif kind in (2, 3):
            found = ("keep" if kind == 2 else "ref", text(), None)
        else:
            return None
    except (Cut, UnicodeDecodeError):
        return None
    return found if at == len(data) else None


def record(data):
    """The head, where its body begins and the body, or why there is no record."""
    if len(data) < 13 or data[-12:-8] != b"MREC":
        return "Torn"
    n = struct.unpack(">Q", data[-8:])[0]
    if n > len(data) - 12:
        return "Torn"
    at = len(data) - 12 - n
    head = head_in(data[:at])
    if head is None or (head[0] == "ref" and n > 0):
        return "Malformed"
    return head, at, data[at:at + n]


def dash(value):
    return "-" if value is None else value if isinstance(value, str) else answered(value) if isinstance(value, bytes) else str(value)


def decode_row(data):
    found = record(data)
    if not isinstance(found, str):
        (kind, text, reducer), _, body = found
        found = f"{kind} {dash(text)}" + (f" {dash(reducer)}" if kind == "emit" else "") + f" [{answered(body)}]"
    row(f"decode {word(data)}", found)


def fronts_row(data):
    letters = [record(data[:n]) for n in range(len(data) + 1)]
    row(f"fronts {word(data)}", "".join(it[0] if isinstance(it, str) else "R" for it in letters))


def fate_of(status, out, files):
    """The records, or the failure. A file is a number and bytes."""
    if status:
        return "UserTaskError"
    if out + sum(len(data) for _, data in files) > 16777216:
        return "TaskOutputTooLarge"
    numbers = [number for number, _ in files]
    found = [record(data) for _, data in files]
    if numbers != sorted(set(numbers)) or any(it > 4094 for it in numbers) or any(isinstance(it, str) for it in found):
        return "TaskRecordError"
    records = [(kind, text, reducer, f"file{place}+{at}+{len(body)}") for place, ((kind, text, reducer), at, body) in enumerate(found)]
    if not any(it[0] in ("emit", "ref") for it in records):
        records.append(("emit", None, None, f"out+0+{out}"))
    if len(records) > 4095:
        return "TaskRecordError"
    for kind, text, _, _ in records:
        if text is not None and path(text.decode()) is None:
            return "TaskObjectMissing" if kind == "ref" else "TaskPlaceRefused"
    return records


def shown_record(kind, text, reducer, body):
    name = "-" if text is None else answered(path(text.decode()).encode())
    return f"; {kind} {name}" + (f" {dash(reducer)}" if kind == "emit" else "") + ("" if kind == "ref" else f" {body}")


def fate_row(files, status=0, stderr=b"", out=0):
    fate = fate_of(status, out, files)
    if isinstance(fate, str):
        answer = f"{fate} {status} [{answered(stderr[:1024])}]"
    else:
        answer = f"Good {len(fate)}" + "".join(shown_record(*it) for it in fate)
    row(f"fate {status} {word(stderr)} {out}" + "".join(f" {number} {word(data)}" for number, data in files), answer)


def copies_row(count, data):
    fate = fate_of(0, 0, [(number, data) for number in range(count)])
    row(f"copies {count} {word(data)}", fate if isinstance(fate, str) else f"Good {len(fate)}")


LONG = b"/l/stor/" + b"x" * 1192  # 1,200 bytes: a text, and no path


def records_rows():
    print("\n# Heads of records (mt_records), laid out by Python's struct. A dash is for none.")
    for place, reducer in ((None, None), (b"/l/stor/p/q", None), (None, 0), (b"~~/stor/a", 4294967295), (b"", 7), (LONG, 1), (b"/l/public/x", 2)):
        row(f"encode emit {'-' if place is None else word(place)} {'-' if reducer is None else reducer}", answered(emit(place, reducer)))
    for place in (b"/l/stor/k", b"", "/l/stor/\u00e9".encode(), b"a b", LONG):
        row(f"encode keep {word(place)}", answered(keep(place)))
        row(f"encode ref {word(place)}", answered(ref(place)))
    for count in (0, 1, 10, 16777216, 18446744073709551615):
        row(f"end-bytes {count}", answered(ended(b"", b"")[:4] + struct.pack(">Q", count)))
    print("\n# Records from the bytes of a file.")
    for data in (ended(emit(), b"abc"), ended(emit()), ended(emit(b"/l/stor/p", 3), b"x y "), ended(emit(None, 0), b"\n"), ended(keep(b"/l/stor/k"), b"0123456789"), ended(ref(b"/l/stor/none")),
                 ended(keep(b"")), ended(ref(b"")), ended(keep(LONG)), ended(emit(LONG, 4294967295), b"z"), ended(emit(b"no path"), b""), ended(emit(b"/l/public/x", 2), b"hi")):
        decode_row(data)
    print("\n# Bytes in a body that spell an end, or a record, are bytes.")
    for body in (b"MREC", b"MREC" + struct.pack(">Q", 0), ended(emit(), b"in"), ended(ref(b"/l/stor/a")) * 2):
        decode_row(ended(emit(), body))
    print("\n# Torn: too short, another mark, a number above what there is.")
    for data in (b"", b"M", ended(b""), ended(emit(), b"abc")[:-1], ended(emit(), b"abc") + b"\0", ended(emit())[:3] + b"MREX" + struct.pack(">Q", 0), ended(emit())[:3] + b"mrec" + struct.pack(">Q", 0),
                 emit() + b"MREC" + struct.pack(">Q", 4), emit() + b"MREC" + struct.pack(">Q", 2**64 - 1), emit() + b"MREC" + struct.pack("<Q", 1), b"x" * 13, b"x" * 1300):
        decode_row(data)
    print("\n# Malformed: what stands before the body is not one head, or the body of a ref.")
    for data in (ended(b"\4"), ended(b"\0"), ended(b"\1"), ended(b"\1\0"), ended(b"", b"abc"), ended(b"\1\2\0"), ended(b"\1\0\2"), ended(b"\1\0\1\0\0\0"), ended(b"\2\0\3ab"), ended(b"\2\0\1ab"),
                 ended(emit() + b"\0", b"x"), ended(ref(b"/l/stor/a"), b"x"), ended(keep(b"\xff")), ended(keep(b"\xc0\x80")), ended(keep(LONG + b"x")), ended(emit(LONG, 1) + b"\0", b"x"), ended(b"\2" + b"\xff" * 2000)):
        decode_row(data)
    print("\n# Each front of a file, from none of it to all: torn (T), malformed (M), a record (R).")
    for data in (ended(emit(b"/l/stor/p", 3), b"body"), ended(ref(b"/l/stor/a")), ended(keep(b"k"), b""), ended(emit(), ended(emit(), b"in")), ended(keep(b"k"), b"MREC" + struct.pack(">Q", 0) + b"more"),
                 ended(emit(), b"MREC" + struct.pack(">Q", 5)), ended(b"\4", b"MREC" + struct.pack(">Q", 1) + b"x")):
        fronts_row(data)
    fates_rows()


def fates_rows():
    print("\n# Fates: records in order of number, bodies by their places in what was left.")
    for files in ([], [(0, ended(emit(b"/l/stor/p/q")))], [(0, ended(keep(b"/l/stor/k")))], [(0, ended(ref(b"/l/stor/none")))], [(0, ended(emit(b"/l/stor/p"), b"ab")), (1, ended(ref(b"/l/stor/p")))],
                  [(0, ended(emit(b"/m/stor/p")))], [(1, ended(emit())), (0, ended(emit()))], [(4095, ended(emit()))], [(4094, ended(emit(None, 9), b"abc"))], [(3, ended(keep(b"~~/public//a/"), b"x")), (7, ended(keep(b"/l/jobs/j/stor/b")))],
                  [(2, ended(emit())), (2, ended(emit()))], [(0, ended(emit(), b"a" * 2000)), (9, ended(emit(None, 1), b"b"))]):
        fate_row(files)
    fate_row([], out=5)
    fate_row([(0, ended(keep(b"/l/stor/k"), b"ab"))], out=7)
    fate_row([(0, ended(ref(b"/l/stor/k")))], out=7)
    print("\n# The first verdict: status, sizes, numbers and records, places and names in order of number.")
    bad, gone, torn = ended(emit(b"/m/stor/p")), ended(ref(b"no")), b"torn"
    fate_row([], status=1, stderr=b"no such file\n")
    fate_row([(0, ended(emit(), b"x\n"))], status=3, stderr=b"bad\n")
    fate_row([(5, torn), (4, torn)], status=255, out=99999999)
    fate_row([], out=16777216)
    fate_row([], out=16777217, stderr=b"x")
    fate_row([(0, ended(emit()))], out=16777216 - 15)
    fate_row([(0, ended(emit()))], out=16777216 - 14)
    fate_row([(1, torn), (0, bad)], out=16777217)
    fate_row([], out=18446744073709551615)
    fate_row([(0, ended(emit())), (1, ended(emit()))], out=18446744073709551610)
    fate_row([(1, ended(emit())), (0, torn)])
    fate_row([(0, bad), (1, torn)])
    fate_row([(0, bad), (1, ended(ref(b"/l/stor/a"), b"x"))])
    fate_row([(0, bad), (1, gone)])
    fate_row([(0, gone), (1, bad)], stderr=b"e" * 1100)
    fate_row([(0, ended(keep(b"/l/stor"))), (1, ended(keep(b"/l/none/x")))])
    for text in (b"", b"/", b"l/stor/a", b"~~", b"/l", b"/l/stor/../a", b"/l/stor/" + b"x" * 255, b"/l/stor/" + b"x" * 256, LONG):
        fate_row([(0, ended(keep(text)))])
    for size in (1023, 1024, 1025):
        fate_row([], status=2, stderr=b"e" * size)
    print("\n# Copies of one file, numbered from 0, and an empty standard output: at most 4,095 records, with that of standard output.")
    for data in (ended(keep(b"/l/stor/k")), ended(emit()), ended(ref(b"/l/stor/k"))):
        for count in (0, 1, 4094, 4095, 4096):
            copies_row(count, data)
    for count, data in ((4094, ended(keep(b"/m/stor/k"))), (4095, ended(keep(b"/m/stor/k"))), (4095, bad), (4095, torn), (4095, ended(emit(), b"x" * 4081)), (4095, ended(emit(), b"x" * 4083))):
        copies_row(count, data)


def identifier(kind, number):
    last = f"{2 ** 63 + number:016x}"
    return f"0000000{kind}-0000-8000-{last[:4]}-{last[4:]}"


def time(moment):
    return (datetime.datetime(1970, 1, 1) + datetime.timedelta(seconds=moment)).strftime("%Y-%m-%dT%H:%M:%S.000Z").rjust(24, "0")


def compact(value):
    return json.dumps(value, sort_keys=True, separators=(",", ":"), ensure_ascii=False)


FAILURES = {
    1: ("UserTaskError", "the command ended with a status other than 0"), 2: ("TaskOutputTooLarge", "the task's output is over the limit"),
    3: ("TaskRecordError", "a helper's record is not whole"), 4: ("TaskPlaceRefused", "an output's place cannot hold an object"),
    5: ("TaskObjectMissing", "a named object is not there"),
}


class Shown:
    """A job as plain values, and its texts."""

    def __init__(self, number, created, document):
        self.number, self.created, self.document = number, created, json.loads(document)
        self.inputs, self.missing, self.trace, self.ended, self.done, self.cancelled = [], [], [], False, None, False

    def feed(self, phase):
        return self.inputs if phase == 0 else [name for p, _, _, made in self.trace if p == phase - 1 and isinstance(made, list) for name in made]

    def phases(self):
        return self.document["phases"]

    def task(self, p, k):
        """What is told of a task besides its failure."""
        if self.phases()[p].get("type", "map") == "reduce":
            return {"reducer": k}
        return {"input": self.feed(p)[k]} if k < len(self.feed(p)) else {}

    def errors(self):
        gone = [{"code": "ResourceNotFound", "input": it, "message": "no such object", "phase": 0} for it in self.missing]
        return gone + [{"code": FAILURES[made[0]][0], "message": FAILURES[made[0]][1], "phase": p, "status": made[1], "stderr": made[2].decode("utf-8", "replace"), **self.task(p, k)}
                       for p, k, _, made in self.trace if isinstance(made, tuple)]

    def lines(self, name):
        if name == "in":
            return self.inputs
        if name == "out":
            return self.feed(len(self.phases()))
        if name == "fail":
            return self.missing + [self.task(p, k)["input"] for p, k, _, made in self.trace if isinstance(made, tuple) and "input" in self.task(p, k)]
        if name == "err":
            return [compact(it) for it in self.errors()]
        return [compact({"outputs": len(made) if isinstance(made, list) else 0, "phase": p, "place": k, "position": q, "state": "ok" if isinstance(made, list) else "failed"})
                for p, k, q, made in self.trace]

    def status(self, done, cancelled):
        phases = []
        for it in self.phases():
            kind = it.get("type", "map")
            shown = {"assets": [path(name) for name in it.get("assets", [])], "exec": it["exec"], "type": kind}
            if kind == "reduce":
                shown["count"] = it.get("count", 1)
            if it.get("init"):
                shown["init"] = it["init"]
            phases.append(shown)
        return compact({
            "cancelled": cancelled, "id": identifier(2, self.number), "inputDone": self.ended, "name": self.document.get("name", ""), "phases": phases,
            "state": "running" if done is None else "done",
            "stats": {"errors": len(self.errors()), "inputs": len(self.inputs), "outputs": len(self.feed(len(phases))), "tasksDone": len(self.trace)},
            "timeCreated": time(self.created), "timeDone": None if done is None else time(done),
        })

    def text(self, name):
        return (self.status(self.done, self.cancelled) if name == "status" else "".join(it + "\n" for it in self.lines(name))).encode()


def read_in(text, size):
    """How many bytes a text has, how many reads take them, and the text."""
    return f"{len(text)} {-(-len(text) // size)}" + (f" {answered(text)}" if text else "")


TEXTS = ("in", "out", "fail", "err", "tasks", "status")


class Shows:
    def job(self, number, created, document):
        self.shown = Shown(number, created, document)
        row(f"job {number} {created} {word(document.encode())}", "")

    def input(self, name):
        self.shown.inputs.append(path(name))
        row(f"input {word(name.encode())}", "")

    def missing(self, text):
        self.shown.missing.append(path(text) or text)
        row(f"missing {word(text.encode())}", "")

    def good(self, p, k, q, *names):
        self.shown.trace.append((p, k, q, [path(it) for it in names]))
        row(" ".join(["good", str(p), str(k), str(q), *(word(it.encode()) for it in names)]), "")

    def bad(self, p, k, q, failure, status, stderr):
        self.shown.trace.append((p, k, q, (failure, status, stderr)))
        row(f"bad {p} {k} {q} {failure} {status} {word(stderr)}", "")

    def end(self):
        self.shown.ended = True
        row("input-end", "")

    def done(self, moment, cancelled):
        self.shown.done, self.shown.cancelled = moment, cancelled
        row(f"done {moment} {int(cancelled)}", "")

    def texts(self, *names):
        for name in names or TEXTS:
            text = self.shown.text(name)
            count = 1 if name == "status" else len(self.shown.lines(name))
            row(f"text {name}", f"{count} {len(text)} {answered(text)}" if text else f"{count} 0")

    def closed(self, name, cancelled, moment):
        text = self.shown.status(moment, cancelled).encode() if name == "status" else self.shown.text(name)
        row(f"closed {name} {int(cancelled)} {moment}", f"{len(text)} {answered(text)}" if text else "0")

    def pieces(self, name, *sizes):
        for size in sizes:
            row(f"pieces {name} {size}", read_in(self.shown.text(name), size))

    def archive(self, name, cancelled, moment, size):
        text = self.shown.status(moment, cancelled).encode() if name == "status" else self.shown.text(name)
        row(f"archive {name} {int(cancelled)} {moment} {size}", read_in(text, size))


def texts():
    print("\n# Texts of jobs (mt_jobtext): the number of lines, of bytes, and the text. JSON is Python's. First a job of one map phase, which runs.")
    shows = Shows()
    shows.job(4096, 0, '{"phases":[{"exec":"cat"}]}')
    shows.texts()
    for name in ("/l/stor/a", "/l/stor/a"):
        shows.input(name)
    shows.missing("/l/stor/none")
    place = f"/l/jobs/{identifier(2, 4096)}/stor/a.0."
    shows.good(0, 0, 3, place + identifier(3, 3 * 4096))
    shows.texts()
    shows.end()
    shows.good(0, 1, 5, place + identifier(3, 5 * 4096))
    print("# It waits to be finished: its texts as it will leave them, and then as it does.")
    for name in TEXTS:
        shows.closed(name, False, 0)
    shows.done(0, False)
    shows.texts()
    print("# The same read in pieces: how many bytes, how many reads, and the text. A line of an output has %d." % (len(place) + 37))
    for size in (1, len(place) + 36, len(place) + 37, len(place) + 38, 2 * (len(place) + 37), 65536):
        shows.pieces("out", size)
    print("\n# Outputs stand in the order of commits, and only those of the last phase; a failed map task of a later phase is named by what it read.")
    shows.job(8192, 1234567890, '{"name":"a \\"b\\"","phases":[{"exec":"x"},{"exec":"y","init":"i","assets":["/l/stor/q"]},{"type":"reduce","exec":"z","count":2}]}')
    for name in ("/l/stor/one", "/l/stor/two words", '/l/stor/t"h\\ree', "/l/public/é/\u2028"):
        shows.input(name)
    for text in ("x y", "/l", "", '"', "/m/stor/a", "~~/stor/b//c"):
        shows.missing(text)
    shows.good(0, 2, 7, "/l/stor/third", "/l/stor/third/more")
    shows.bad(0, 0, 8, 1, 3, b"bad\n")
    shows.good(0, 1, 9)
    shows.good(0, 3, 10, "/l/stor/last")
    shows.bad(1, 2, 11, 2, 0, b"")
    shows.good(1, 0, 12, "/l/stor/k", "/l/stor/k")
    shows.bad(1, 1, 13, 4, 0, b"\xff\xe2\x82 \xf0\x9f\x98\x80\x00\x1f\x7f\t\"\\")
    shows.end()
    shows.bad(2, 1, 14, 3, 255, b"\xc0\x80 tail\xe2\x82")
    shows.good(2, 0, 15, "/l/stor/r")
    shows.texts()
    print("# And in pieces, as it stands and as it will leave them.")
    for name in TEXTS:
        shows.pieces(name, 1, 7, 64, 1000)
        shows.archive(name, name == "err", 1234567999, 100)
    shows.done(1234567999, False)
    shows.texts("status")
    print("\n# Failed tasks of a second and a third map phase: each is named by the output that it read, in the order of commits, whichever task made it.")
    shows.job(12288, 86400, '{"phases":[{"exec":"a"},{"exec":"b"},{"exec":"c"}]}')
    for k in range(6):
        shows.input(f"/l/stor/in{k}")
    shows.good(0, 4, 20, "/l/stor/4a", "/l/stor/4 b")
    shows.bad(1, 1, 21, 1, 1, b"second\n")
    shows.good(0, 1, 22)
    shows.bad(0, 5, 23, 5, 2, b"")
    shows.good(0, 0, 24, '/l/public/"0"', "/l/stor/0b", "/l/stor/4a")
    shows.good(1, 0, 25, "/l/stor/deep/x", "/l/stor/deep/y")
    for k, q in ((4, 26), (2, 27), (3, 28)):
        shows.bad(1, k, q, 1, 64 + k, b"task %d" % k)
    shows.bad(2, 1, 29, 3, 0, b"")
    shows.good(0, 2, 30, "/l/stor/2a")
    shows.bad(1, 5, 31, 2, 0, b"\0")
    shows.bad(2, 0, 32, 1, 130, b"")
    shows.texts()
    print("# One whose place nothing has is named by nothing.")
    shows.bad(1, 6, 33, 1, 1, b"")
    shows.bad(2, 2, 34, 1, 1, b"")
    shows.texts("fail", "err")
    for name in ("fail", "err"):
        shows.pieces(name, 1, 64, 65536)
        shows.closed(name, False, 86401)
        shows.archive(name, True, 86401, 50)
    print("\n# A job that was cancelled, of which nothing ran.")
    shows.job(2 ** 62 - 4096, 253402300799, '{"phases":[{"exec":"x","type":"reduce"}]}')
    shows.input("/l/stor/a")
    shows.closed("status", True, 253402300799)
    shows.archive("status", True, 253402300799, 3)
    shows.done(253402300799, True)
    shows.texts()
    shows.pieces("in", 9, 10)
    shows.pieces("out", 1)
    print("\n# Names of a part of a status, and of two parts and a byte; a missing line of some blocks of text.")
    for size in (4096, 8193):
        shows.job(0, 0, '{"name":"%s","phases":[{"exec":"x"}]}' % ("\\u0001" * 3 + "n" * (size - 3)))
        shows.pieces("status", 4000)
        shows.archive("status", False, 0, 65536)
    shows.job(0, 0, '{"phases":[{"exec":"x"}]}')
    shows.missing("\x01" + "m" * 4094 + '"' + "'" * 4096 + "z")
    shows.texts("err")
    shows.pieces("err", 3000)
    print("\n# Each cause of a failure.")
    shows.job(0, 951782400, '{"phases":[{"exec":"x"}]}')
    for k in FAILURES:
        shows.input(f"/l/stor/{k}")
        shows.bad(0, k - 1, k, k, 7 * k, bytes([k]))
    shows.texts("fail", "err", "tasks", "status")


def main():
    print("# Job documents (mt_jobdoc), judged by Python's json. Names of assets are those of the login l.")
    for text in BY_HAND:
        document(text)
    print("\n# Seventeen phases, and sixteen; assets and command lines at their limits.")
    for count in (16, 17):
        document('{"phases":[%s]}' % ",".join(['{"exec":"x"}'] * count))
    for count in (64, 65):
        document('{"phases":[{"exec":"x","assets":[%s]}]}' % ",".join(['"/l/stor/a"'] * count))
    for count in (65536, 65537):
        text = '{"phases":[{"exec":"%s"}]}'
        shown = text.replace("%s", "x" * (count - 65536) + "\\*65536.x")
        row(f"document-bytes {shown}", judged((text % ("x" * count)).encode()) if count > 65536 else "job ; map " + "x" * count)
    print("\n# Lists in lists, below a phase in a list in an object: 127 deep in all, and deeper.")
    for count in (1, 124, 125, 200):
        row(f"nested {count}", judged(('{"phases":[{"exec":"x","more":' + "[" * count + "]" * count + "}]}").encode()))
    print("\n# Bytes that are no text.")
    for data in (b'{"phases":[{"exec":"\xff"}]}', b'{"phases":[{"exec":"\xc0\x80"}]}', b'\xff'):
        row(f"document-bytes {word(data)}", "NotJson")
    print("\n# Documents of chosen parts.")
    for text in generated(120):
        document(text)
    print("\n# Phases as they are printed, keys in the order of their bytes, by Python's json.")
    for text in ('{"phases":[{"exec":"cat"}]}', '{"phases":[{"exec":"cat","type":"reduce"},{"init":"i","type":"map","exec":"e"}]}',
                 '{"phases":[{"assets":["~~/stor//a","/l/public/b c"],"exec":"x","init":"i","type":"reduce","count":12}]}'):
        row(f"print {text}", printed(text.encode()))
    print("\n# The reducer of a key: the first four bytes of its MD5, by Python's hashlib.")
    for text, n in ((b"a", 8), (b"b", 8), (b"c", 8), (b"", 1), (b"", 7), (b"a", 1), (b"a", 1024), (b"message digest", 4294967295), (b"\x00\xff", 10)):
        row(f"route {word(text)} {n}", str(route(text, n)))
    print("\n# The key of a line: one line feed is left out, and no carriage return.")
    for line in (b"a\n", b"a", b"", b"\n", b"a\r\n", b"a\n\n", b" a \n"):
        key_row(line)
    for line, delimiter, numbers in ((b"a\tb\tc\n", b"\t", (1,)), (b"a\tb\tc\n", b"\t", (3, 1)), (b"a\tb\tc\n", b"\t", (2, 2)), (b"a,b\n", b",", (3,)),
                                     (b"a,b\n", b",", (3, 2)), (b"a,b\n", b",", (0, 1)), (b",\n", b",", (1, 2)), (b"", b",", (1,)), (b"a\n", b"\n", (1, 2)),
                                     (b"a\nb\n", b"\n", (2,)), (b"a,b,c", b",", (1, 2, 3)), (b"a,b", b",", ())):
        key_row(line, delimiter, numbers)
    print("\n# Lines in their order, a last one without its line feed.")
    for n, text in ((1, b""), (3, b""), (1, b"b\na\nb"), (8, b"a\nb\nc\n"), (3, b"a\nb\nc\nb\na"), (2, b"\n\n\n"), (4, b"x 1\ny 2\nx 3"), (2, b"a\r\nb\r\n")):
        split_row(n, text)
    for n, text, delimiter, numbers in ((4, b"x 1\ny 2\nx 3", b" ", (1,)), (4, b"x 1\ny 2\nx 3", b" ", (2,)), (3, b"k,1\nk,2\nm,1\nk,3", b",", (1,)), (2, b"a\nb\n", b",", (9,))):
        split_row(n, text, delimiter, numbers)
    queues = Queues()
    for title, steps in BY_STEPS:
        print(f"\n# {title}" + (" The first ready task of all jobs (mt_sched)." if queues.made == 0 else ""))
        for step in steps.split(","):
            queues.play(step.strip())
    print("\n# Chosen steps.")
    chosen(queues, 160)
    records_rows()
    texts()


if __name__ == "__main__":
    main()
