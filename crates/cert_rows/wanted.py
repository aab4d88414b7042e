#!/usr/bin/env python3
"""Prints the table of cert_rows with the wanted answers: lines are judged by Python's json, base64 and uuid, by the forms that API.md and the README of
mt_certline list, and certificates by the rules that the README of mt_checker lists, over whole lists; those of jobs are made so, too."""
import base64
import hashlib
import json
import re

LOGIN = "l"


def escaped(data):
    out = []
    for b in data:
        out.append({9: "\\t", 10: "\\n", 13: "\\r", 92: "\\x5c"}.get(b) or (chr(b) if 32 <= b <= 126 else f"\\x{b:02x}"))
    return "".join(out)


def row(call, answer):
    print(f"{call:<48} => {answer}")


class Refused(Exception):
    pass


class Whole(int):
    """A number without sign, point and exponent, below 2^64."""


def number(text):
    return Whole(text) if re.fullmatch("[0-9]+", text) and int(text) < 2**64 else float(text)


def refuse(text):
    raise ValueError(text)


def want(holds):
    if not holds:
        raise Refused


def keys(value, *names):
    want(isinstance(value, dict) and set(value) == set(names))


def whole(value):
    want(isinstance(value, Whole))
    return int(value)


def text(value):
    want(isinstance(value, str))
    return value


def digest(value):
    raw = text(value).encode()
    try:
        found = base64.b64decode(raw, validate=True)
    except ValueError:
        raise Refused
    want(len(found) == 16 and base64.b64encode(found) == raw)
    return raw.decode()


def component(name):
    raw = name.encode()
    return 1 <= len(raw) <= 255 and not any(b < 32 or b in (47, 127) for b in raw) and name not in (".", "..")


def path(value):
    """A name as it is printed: the login, the area, and components below it."""
    name = text(value)
    want(name.startswith("/"))
    pieces = name[1:].split("/")
    want(len(pieces) >= 2 and pieces[0] == LOGIN and pieces[1] in ("stor", "public", "jobs"))
    want(all(component(p) for p in pieces[2:]) and len(name.encode()) - len(LOGIN) - 1 <= 1024)
    return name


def item(value):
    keys(value, "md5", "name", "reducer", "root", "size")
    digest(value["md5"])
    path(value["name"])
    if value["reducer"] is not None:
        want(whole(value["reducer"]) < 2**32)
    root = text(value["root"])
    want(component(root) and len(root.encode()) <= 200)
    whole(value["size"])


def command(value):
    raw = text(value).encode()
    want(1 <= len(raw) <= 65536 and 0 not in raw)


def phase(value):
    want(isinstance(value, dict))
    names = {"assets", "exec", "type"}
    names |= {"init"} & set(value)
    names |= {"count"} if value.get("type") == "reduce" else set()
    want(set(value) == names and value["type"] in ("map", "reduce"))
    want(isinstance(value["assets"], list) and len(value["assets"]) <= 64)
    for name in value["assets"]:
        path(name)
    command(value["exec"])
    if "init" in value:
        command(value["init"])
    if "count" in value:
        want(1 <= whole(value["count"]) <= 1024)


def form(value):
    want(isinstance(value, dict))
    if "certificate" in value:
        keys(value, "certificate", "id", "phases")
        want(whole(value["certificate"]) == 1)
        found = re.fullmatch("00000002-0000-8000-([89ab][0-9a-f]{3})-([0-9a-f]{12})", text(value["id"]))
        want(found and int(found[1] + found[2], 16) - 2**63 < 2**62)
        want(isinstance(value["phases"], list) and 1 <= len(value["phases"]) <= 16)
        for p in value["phases"]:
            phase(p)
        return "begin"
    if "input" in value:
        keys(value, "input")
        item(value["input"])
        return "input"
    if "output" in value:
        keys(value, "output")
        path(value["output"])
        return "output"
    if "end" in value:
        keys(value, "end")
        want(value["end"] is True)
        return "end"
    keys(value, "items", "phase", "place", "position", "reads", "state")
    want(isinstance(value["items"], list) and isinstance(value["reads"], list))
    for i in value["items"]:
        item(i)
    for name in ("phase", "place", "position"):
        whole(value[name])
    for place in value["reads"]:
        whole(place)
    want(value["state"] == "ok" or (value["state"] == "failed" and not value["items"]))
    return "task"


def parsed(data):
    """The form of a line and its value; none where it is no line."""
    try:
        value = json.loads(data.decode(), parse_int=number, parse_float=float, parse_constant=refuse)
        return form(value), value
    except (Refused, ValueError):
        return None, None


def judged(data):
    name, value = parsed(data)
    if name is None:
        return "no line"
    return f"{name} {escaped(json.dumps(value, sort_keys=True, separators=(',', ':'), ensure_ascii=False).encode())}"


def line(words):
    """Texts with a backslash are given as words."""
    data = words.encode()
    call = "line-bytes " + escaped(data).replace(" ", "\\s") if "\\" in words else f"line {words}"
    row(call, judged(data))


LONGEST_LINE = MOST_LINES = 16777216


class Listed:
    """A certificate so far."""

    def __init__(self):
        self.phases = None
        self.inputs, self.tasks, self.outputs, self.made, self.over = [], [], [], [], False

    def feed(self, phase):
        if phase == 0:
            return self.inputs
        return [item for task in self.tasks if task["phase"] == phase - 1 for item in task["items"]]

    def share(self, phase, place):
        kind = self.phases[phase]
        if kind["type"] == "map":
            return [place]
        return [at for at, item in enumerate(self.feed(phase)) if (at if item["reducer"] is None else item["reducer"]) % kind["count"] == place]

    def places(self, phase):
        kind = self.phases[phase]
        return len(self.feed(phase)) if kind["type"] == "map" else kind["count"]

    def open(self):
        """The first phase with a place that is not listed."""
        for phase in range(len(self.phases)):
            listed = {task["place"] for task in self.tasks if task["phase"] == phase}
            if any(place not in listed for place in range(self.places(phase))):
                return phase
        return None

    def names(self):
        """The names of the outputs; behind one of them no task may stand."""
        if not self.outputs:
            self.made = [item["name"] for item in self.feed(len(self.phases))]
        return self.made

    def is_next(self, name):
        names = self.names()
        return len(self.outputs) < len(names) and names[len(self.outputs)] == name

    def follows(self, task):
        phase = self.open()
        if phase is None or task["phase"] != phase or task["place"] >= self.places(phase):
            return False
        others = [other for other in self.tasks if other["phase"] == phase]
        return (task["place"] not in [other["place"] for other in others]
                and (not others or others[-1]["position"] < task["position"])
                and task["reads"] == self.share(phase, task["place"]))

    def take(self, name, value):
        """Whether a line may stand there; if so it does."""
        if self.over or (self.phases is None) != (name == "begin"):
            return False
        if name == "begin":
            self.phases = value["phases"]
        elif name == "input" and not self.tasks and not self.outputs:
            self.inputs.append(value["input"])
        elif name == "task" and not self.outputs and self.follows(value):
            self.tasks.append(value)
        elif name == "output" and self.open() is None and self.is_next(value["output"]):
            self.outputs.append(value["output"])
        elif name == "end" and self.open() is None and self.outputs == self.names():
            self.over = True
        else:
            return False
        return True


def verdict(data):
    """The status of a check, and what it writes."""
    *whole, rest = data.split(b"\n")
    listed, wrong = Listed(), None
    for at, (text, ended) in enumerate([(t, True) for t in whole] + ([(rest, False)] if rest else []), 1):
        wrong = at
        if not ended or len(text) + 1 > LONGEST_LINE or at > MOST_LINES:
            break
        name, value = parsed(text)
        if name is None or not listed.take(name, value):
            break
        wrong = at + 1
    else:
        if listed.over:
            return "0 [accepted\\n]"
    return f"15 [refused at {wrong or 1}\\n]"


def put(texts):
    """Puts lines, each with its line feed; their bytes."""
    data = b""
    for words in texts:
        data += words.encode() + b"\n"
        if "\\" in words:
            row("bytes " + escaped(words.encode()).replace(" ", "\\s") + "\\n", len(data))
        else:
            row(f"put {words}", len(data))
    return data


def check(texts, behind=""):
    """A certificate of these lines, with some text behind them."""
    data = put(texts)
    if behind:
        data += behind.encode()
        row("bytes " + behind.replace(" ", "\\s"), len(data))
    row("check", verdict(data))


def steps(texts):
    """The same line by line."""
    row("new", "started")
    listed, refused = Listed(), False
    for words in texts:
        name, value = parsed(words.encode())
        refused = refused or name is None or not listed.take(name, value)
        row(f"step {words}", "refused" if refused else "accepted" if listed.over else "going")


MD5 = "XUFAKrxLKna5cZ2REBfFkg=="
ID = "00000002-0000-8000-8000-000000001000"


def an_item(**changes):
    value = {"md5": MD5, "name": "/l/stor/a", "reducer": None, "root": "a", "size": 5}
    value.update(changes)
    return json.dumps(value, separators=(",", ":"), ensure_ascii=False)


def a_task(items="[]", phase="0", place="0", position="3", reads="[0]", state='"ok"'):
    return f'{{"items":{items},"phase":{phase},"place":{place},"position":{position},"reads":{reads},"state":{state}}}'


def a_begin(phases, id=f'"{ID}"', certificate="1"):
    return f'{{"certificate":{certificate},"id":{id},"phases":{phases}}}'


MAP = '{"assets":[],"exec":"cat","type":"map"}'


def main():
    print("# The lines of the certificate of a map job.")
    line(a_begin(f"[{MAP}]"))
    for name in ("a", "b"):
        line(f'{{"input":{an_item(name=f"/l/stor/{name}", root=name)}}}')
    made = an_item(name=f"/l/jobs/{ID}/stor/a.0.00000003-0000-8000-8000-000000003000")
    line(a_task(f"[{made}]"))
    line(a_task(place="1", position="4", reads="[1]", state='"failed"'))
    line(f'{{"output":"/l/jobs/{ID}/stor/a.0.00000003-0000-8000-8000-000000003000"}}')
    line('{"end":true}')

    print("\n# The order of keys and blanks are free, and of a key that comes twice the last value stands.")
    line('  { "phases" : [ { "type":"map" , "exec":"cat", "assets":[ ] } ], "id" : "%s" , "certificate" : 1 }' % ID)
    line('{"end":false,"end":true}')
    line('{"end":true,"end":false}')
    line(f'{{"size":7,"root":"x"}}')
    line(f'{{"input":{{"size":5,"size":6,"root":"a","reducer":7,"name":"/l/stor/a","md5":"{MD5}"}}}}')

    print("\n# A key more, a key less, and other values.")
    for words in ("", "{}", "[]", "null", "true", "1", '"end"', "{", '{"end":true', '{"end":true}}', '{"end":true,}', '{"end":null}', '{"end":1}', '{"end":true,"more":1}', '{"END":true}', '{"stop":true}'):
        line(words)
    line(f'{{"input":{an_item()},"output":"/l/stor/a"}}')
    line('{"input":null}')
    line('{"input":{}}')
    for key in ("md5", "name", "reducer", "root", "size"):
        value = json.loads(an_item())
        del value[key]
        line(json.dumps({"input": value}, separators=(",", ":")))
        line(f'{{"input":{an_item(**{key: True})}}}')
    line(f'{{"input":{an_item(more=1)}}}')
    line(a_task()[:-1] + ',"more":1}')
    for key in ("items", "phase", "place", "position", "reads", "state"):
        value = json.loads(a_task())
        del value[key]
        line(json.dumps(value, separators=(",", ":")))

    print("\n# Numbers are whole, below 2^64, in digits alone; those of reducers are below 2^32.")
    for words in ("0", "18446744073709551615", "18446744073709551616", "2.0", "2e0", "1E0", "-0", "-1", "01", '"1"', "null"):
        line(a_task(phase=words))
        line(a_task(reads=f"[{words}]"))
    for words in (4294967295, 4294967296, 18446744073709551615):
        line(f'{{"input":{an_item(reducer=words)}}}')
    for words in ("18446744073709551615", "18446744073709551616", "5.0"):
        line(f'{{"input":{an_item().replace(":5}", ":" + words + "}")}}}')
    line(a_task(place="7", position="0", reads="[0,2,4]"))
    line(a_task(reads="[]"))
    line(a_task(reads="{}"))
    line(a_task(reads="[[0]]"))

    print("\n# A task that failed has no items.")
    line(a_task(f"[{an_item()}]"))
    line(a_task(f"[{an_item()},{an_item(name='/l/public/b', reducer=2)}]"))
    line(a_task(f"[{an_item()}]", state='"failed"'))
    line(a_task(state='"failed"'))
    line(a_task(state='"OK"'))
    line(a_task(state="true"))
    line(a_task(items="null"))
    line(a_task(items="[null]"))

    print("\n# Names stand as they are printed, with the login.")
    for name in ("/l/stor", "/l/stor/", "/l/public/x/y", "/l/jobs/z", "/l/stor/%25", "/l/stor/a b", "/l/stor/é", "/l/stor/\\", "~~/stor/a", "/~~/stor/a", "/l//stor/a", "//l/stor/a", "/m/stor/a", "/l/other/a", "/l", "l/stor/a", "", "/l/stor/.", "/l/stor/..", "/l/stor/a/../b", "/l/stor/" + "n" * 255, "/l/stor/" + "n" * 256):
        line(json.dumps({"output": name}, separators=(",", ":"), ensure_ascii=False))
    line('{"output":"\\u002fl/stor/\\u0061"}')
    line('{"output":["/l/stor/a"]}')

    print("\n# A root is a component of at most 200 bytes.")
    for root in ("", ".", "..", "a/b", "r" * 200, "r" * 201, "é" * 100, "é" * 101, "a b"):
        line(f'{{"input":{an_item(root=root)}}}')

    print("\n# A digest is the base64 of 16 bytes.")
    for md5 in ("", "XUFAKrxLKna5cZ2REBfFkg", "XUFAKrxLKna5cZ2REBfFkg=", "XUFAKrxLKna5cZ2REBfFkh==", "XUFAKrxLKna5cZ2REBfF", "AAAAAAAAAAAAAAAAAAAAAA==", "//////////////////////w=", "/////////////////////w==", " XUFAKrxLKna5cZ2REBfFkg=="):
        line(f'{{"input":{an_item(md5=md5)}}}')

    print("\n# The first line: its version, its job, and its phases as they are printed.")
    for certificate in ("0", "2", "1.0", '"1"', "null"):
        line(a_begin(f"[{MAP}]", certificate=certificate))
    for id in ("00000001-0000-8000-8000-000000001000", "00000002-0000-8000-BFFF-FFFFFFFFF000", "00000002-0000-8000-bfff-fffffffff000", "00000002-0000-8000-c000-000000000000", "00000002-0000-8000-8000-000000000001", "2", ""):
        line(a_begin(f"[{MAP}]", id=f'"{id}"'))
    line(a_begin(f"[{MAP}]", id="4096"))
    for phases in (
        "[]", "{}", "null", f"[{','.join([MAP] * 16)}]", f"[{','.join([MAP] * 17)}]", "[1]", "[{}]",
        '[{"assets":[],"exec":"cat"}]', '[{"exec":"cat","type":"map"}]', '[{"assets":[],"type":"map"}]',
        '[{"assets":[],"count":1,"exec":"cat","type":"map"}]', '[{"assets":[],"exec":"cat","type":"reduce"}]',
        '[{"assets":[],"count":1,"exec":"cat","type":"reduce"}]', '[{"assets":[],"count":1024,"exec":"cat","type":"reduce"}]',
        '[{"assets":[],"count":1025,"exec":"cat","type":"reduce"}]', '[{"assets":[],"count":0,"exec":"cat","type":"reduce"}]', '[{"assets":[],"count":1.0,"exec":"cat","type":"reduce"}]',
        '[{"assets":[],"exec":"cat","init":"","type":"map"}]', '[{"assets":[],"exec":"cat","init":"cd x","type":"map"}]', '[{"assets":[],"exec":"cat","init":null,"type":"map"}]',
        '[{"assets":[],"exec":"","type":"map"}]', '[{"assets":[],"exec":"a\\u0000b","type":"map"}]', '[{"assets":[],"exec":"a\\"b\\\\c\\n","type":"map"}]',
        '[{"assets":["/l/stor/x"],"exec":"cat","type":"map"}]', '[{"assets":["~~/stor/x"],"exec":"cat","type":"map"}]', '[{"assets":["/m/stor/x"],"exec":"cat","type":"map"}]', '[{"assets":[1.5],"exec":"cat","type":"map"}]',
        '[{"assets":[],"exec":"cat","more":1.5,"type":"map"}]', '[{"assets":[],"exec":"cat","type":"MAP"}]', f'[{MAP},{{"assets":[],"count":2,"exec":"wc","init":"true","type":"reduce"}}]',
    ):
        line(a_begin(phases))
    line(a_begin(f"[{MAP}]")[:-1] + ',"name":""}')

    print("\n# Bytes that are no text.")
    row('line-bytes {"output":"/l/stor/\\xff"}', judged(b'{"output":"/l/stor/\xff"}'))
    row('line-bytes {"output":"/l/stor/\\xc3\\xa9"}', judged(b'{"output":"/l/stor/\xc3\xa9"}'))
    row('line-bytes \\xef\\xbb\\xbf{"end":true}', judged(b'\xef\xbb\xbf{"end":true}'))
    checks()


def an_input(name, **changes):
    return f'{{"input":{an_item(name=f"/l/stor/{name}", root=name, **changes)}}}'


def made_at(name, position, **changes):
    """An output of the task that was committed there."""
    return an_item(name=f"/l/jobs/{ID}/stor/{name}.0.00000003-0000-8000-8000-{position:09x}000", root=name, **changes)


def an_output(made):
    return f'{{"output":{json.dumps(json.loads(made)["name"])}}}'


END = '{"end":true}'


def map_job():
    """The certificate of a map job over an object that was posted twice."""
    made = made_at("a", 3), made_at("a", 5)
    return [a_begin(f"[{MAP}]"), an_input("a"), an_input("a"),
            a_task(f"[{made[0]}]"), a_task(f"[{made[1]}]", place="1", position="5", reads="[1]"),
            an_output(made[0]), an_output(made[1]), END]


def reduce_phase(count):
    return f'{{"assets":[],"count":{count},"exec":"wc","type":"reduce"}}'


def two_phases():
    """The certificate of a map phase of three tasks and two reducers; an item that names none is read by its place."""
    made = made_at("a", 5), made_at("b", 4, reducer=1), made_at("c", 9)
    sums = made_at("reduce", 8), made_at("reduce", 11)
    return [a_begin(f"[{MAP},{reduce_phase(2)}]"), an_input("a"), an_input("b"), an_input("c"),
            a_task(f"[{made[1]}]", place="1", position="4", reads="[1]"),
            a_task(f"[{made[0]}]", place="0", position="5", reads="[0]"),
            a_task(f"[{made[2]}]", place="2", position="9", reads="[2]"),
            a_task(f"[{sums[0]}]", phase="1", place="0", position="8", reads="[2]"),
            a_task(f"[{sums[1]}]", phase="1", place="1", position="11", reads="[0,1]"),
            an_output(sums[0]), an_output(sums[1]), END]


def changed(texts, place, old, new):
    """With another text in a line, counted from 1."""
    assert old in texts[place - 1]
    return texts[:place - 1] + [texts[place - 1].replace(old, new, 1)] + texts[place:]


def without(texts, place):
    return texts[:place - 1] + texts[place:]


def exchanged(texts, place):
    return texts[:place - 1] + [texts[place], texts[place - 1]] + texts[place + 1:]


def doubled(texts, place):
    return texts[:place] + texts[place - 1:]


def checks():
    job = map_job()
    print("\n# The certificate of a map job is accepted; with lines exchanged, left out or twice it is not.")
    check(job)
    for at in range(1, 8):
        check(exchanged(job, at))
    for at in range(1, 9):
        check(without(job, at))
        check(doubled(job, at))

    print("\n# Bytes behind the end, a last line without its line feed, and no line.")
    check(job, behind="x")
    check(job, behind=" ")
    check(job + [""])
    check(job + job)
    check(job[:-1], behind=END)
    check([])
    check([], behind="x")
    check([""])
    check(job[:4])

    print("\n# A place, a position and a phase.")
    for new in ("2.0", "1e0", "-0", "2", "18446744073709551615"):
        check(changed(job, 5, '"place":1', f'"place":{new}'))
    check(changed(job, 5, '"place":1', '"place":0'))
    for new in ("3", "2", "18446744073709551615"):
        check(changed(job, 5, '"position":5', f'"position":{new}'))
    for new in ("1", "4294967296"):
        check(changed(job, 5, '"phase":0', f'"phase":{new}'))
    for new in ("[]", "[0]", "[1,1]", "[0,1]", "[2]"):
        check(changed(job, 5, '"reads":[1]', f'"reads":{new}'))

    print("\n# The keys of a line, its names, roots and reducers.")
    check(changed(job, 5, '{"items"', '{"more":1,"items"'))
    check(changed(job, 5, ',"state":"ok"', ""))
    check(changed(job, 5, '"place":1', '"place":0,"place":1'))
    check(changed(job, 2, "/l/stor/a", "/l/stor/%61"))
    check(changed(job, 2, "/l/stor/a", "/m/stor/a"))
    check(changed(job, 2, '"root":"a"', f'"root":"{"r" * 201}"'))
    check(changed(job, 2, '"reducer":null', '"reducer":4294967295'))
    check(changed(job, 2, '"reducer":null', '"reducer":4294967296'))
    check(changed(job, 1, '"cat"', '"wc"'))
    check(changed(job, 2, MD5, "AAAAAAAAAAAAAAAAAAAAAA=="))

    print("\n# A task that failed has no outputs, and its place counts as listed.")
    check(changed(job, 5, '"ok"', '"failed"'))
    failed = job[:4] + [a_task(place="1", position="4", reads="[1]", state='"failed"')] + job[5:]
    check(failed)
    check(without(failed, 7))
    three = [job[0], an_input("a"), an_input("b"), an_input("c"), job[3], failed[4],
             a_task(f"[{made_at('c', 7)}]", place="2", position="7", reads="[2]"), job[5], an_output(made_at("c", 7)), END]
    check(three)
    check(changed(three, 7, '"place":2', '"place":1'))

    print("\n# Two phases: reducers read their shares, in order; positions rise within a phase.")
    both = two_phases()
    check(both)
    for at in range(4, 12):
        check(exchanged(both, at))
    for at in range(1, 13):
        check(without(both, at))
    check(changed(both, 8, "[2]", "[0,2]"))
    check(changed(both, 9, "[0,1]", "[1,0]"))
    check(changed(both, 9, "[0,1]", "[1]"))
    check(changed(both, 8, '"position":8', '"position":11'))
    check(changed(both, 8, '"position":8', '"position":0'))
    check(changed(both, 5, '"reducer":1', '"reducer":3'))
    check(changed(both, 5, '"reducer":1', '"reducer":2'))
    check(changed(both, 1, '"count":2', '"count":3'))

    print("\n# Phases over nothing: a reducer reads no place, a map phase has no task.")
    check([a_begin(f"[{reduce_phase(1)}]"), a_task(reads="[]", position="0"), END])
    check([a_begin(f"[{reduce_phase(1)}]"), a_task(reads="[0]", position="0"), END])
    check([a_begin(f"[{MAP}]"), END])
    check([a_begin(f"[{MAP},{MAP}]"), END])
    check([a_begin(f"[{MAP},{reduce_phase(2)},{MAP}]"), a_task(phase="1", place="1", reads="[]"), a_task(phase="1", position="4", reads="[]"), END])
    check([a_begin(f"[{MAP},{reduce_phase(2)},{MAP}]"), a_task(phase="1", place="1", reads="[]"), END])
    check([a_begin(f"[{MAP}]"), an_input("a"), END])
    check([a_begin(f"[{MAP},{MAP}]"), an_input("a"), a_task(f"[{made_at('a', 3)},{made_at('b', 3)}]"),
           a_task(phase="1", position="5"), a_task(f"[{made_at('b', 4)}]", phase="1", place="1", position="6", reads="[1]"), an_output(made_at("b", 4)), END])

    print("\n# Line by line: behind a line that is accepted or refused each is refused.")
    steps(job + [END, job[0]])
    steps(changed(job, 5, '"place":1', '"place":0'))

    print("\n# A read and a write that fail; the reads are of one byte each.")
    data = put(job)
    row("check read 0", "3 []")
    put(job)
    row(f"check read {len(data) - 1}", "3 []")
    put(job)
    row(f"check read {len(data)}", "3 []")
    put(job)
    row(f"check read {len(data) + 1}", verdict(data))
    wrong = put([END])
    row(f"check read {len(wrong) - 1}", "3 []")
    put([END])
    row(f"check read {len(wrong)}", verdict(wrong))
    put(job)
    row("check write 0", "4 []")

    print("\n# A line of 16,777,216 bytes, and a longer one.")
    room = LONGEST_LINE - len(job[1]) - 1
    for blanks in (room, room + 1):
        long = job[1].replace('"input"', " " * blanks + '"input"', 1)
        data = put(job[:1])
        row("bytes {", len(data) + 1)
        row(f"many {blanks} \\s", len(data) + 1 + blanks)
        row("bytes " + job[1][1:] + "\\n", len(data) + blanks + len(job[1]) + 1)
        whole = b"".join(t.encode() + b"\n" for t in job[:1] + [long])
        for t in job[2:]:
            whole += t.encode() + b"\n"
            row(f"put {t}", len(whole))
        row("check", verdict(whole))
    jobs()


PAGE = 65536


def word(text):
    return escaped(text.encode()).replace(" ", "\\s")


def compact(value):
    return json.dumps(value, sort_keys=True, separators=(",", ":"), ensure_ascii=False)


class Job:
    """A job of mt_cert's rows: its certificate lists the tasks phase by phase, each with what it read."""

    def __init__(self, phases, number=4096):
        self.number, self.listed = number, Listed()
        self.listed.phases = json.loads(phases)
        text = '{"phases":' + phases + "}"
        row(f"job-bytes {number} {word(text)}" if "\\" in text else f"job {number} {text}", "begun")

    def list(self, text, times=1):
        name, value = parsed(text.encode())
        for _ in range(times):
            self.listed.inputs.append(value["input"]) if name == "input" else self.listed.tasks.append(value)
        row(f"list-bytes {word(text)}" if "\\" in text else f"list {text}" if times == 1 else f"list-many {times} {text}", "listed")

    def more(self, times):
        """The last task gets its last output so many times more."""
        items = self.listed.tasks[-1]["items"]
        items.extend(items[-1:] * times)
        row(f"more {times}", "listed")

    def lines(self):
        raw = f"{2**63 + self.number:016x}"
        yield compact({"certificate": 1, "id": f"00000002-0000-8000-{raw[:4]}-{raw[4:]}", "phases": self.listed.phases})
        for item in self.listed.inputs:
            yield compact({"input": item})
        for phase in range(len(self.listed.phases)):
            for task in self.listed.tasks:
                if task["phase"] == phase:
                    yield compact({**task, "reads": self.listed.share(phase, task["place"])})
        for name in self.listed.names():
            yield compact({"output": name})
        yield compact({"end": True})

    def fits(self):
        lines = list(self.lines())
        row("fits", "true" if len(lines) <= MOST_LINES and all(len(l.encode()) < LONGEST_LINE for l in lines) else "false")

    def certify(self, shown=True, room=1048576, most=None, fails=None):
        """The certificate, in pages; what is written of it is checked."""
        pages, page = [], b""
        for text in self.lines():
            page += text.encode() + b"\n"
            if PAGE <= len(page):
                pages, page = pages + [page], b""
        written, calls, end = b"", 0, "whole"
        for page in pages + [page] * bool(page):
            while page and end == "whole":
                calls += 1
                if fails == calls - 1 or room == len(written):
                    end = "sink fault"
                    break
                took = page[:min(most or len(page), room - len(written))]
                written, page = written + took, page[len(took):]
        words = f" most {most}" if most else f" write {fails}" if fails is not None else f" room {room}" if room != 1048576 else ""
        row(f"certify{words}", f"{end} {len(written)} {calls}")
        if shown:
            row("written", escaped(written))
        row("check", verdict(written))
        return written


def jobs():
    print("\n# The certificate of a job: a map phase over an object that was posted twice.")
    job = Job(f"[{MAP}]")
    for text in map_job()[1:5]:
        job.list(text)
    job.fits()
    data = job.certify()
    assert data.decode().split("\n")[:-1] == map_job() and len(data) == 1012
    assert hashlib.md5(data).hexdigest() == "5bba4a9727f5852da38448cb420936c7"
    for most in (1012, 1011, 1):
        job.certify(shown=False, most=most)
    job.certify(shown=False, fails=0)
    for room in (1012, 1011, 1, 0):
        job.certify(shown=room == 1, room=room)

    print("\n# Two phases, committed by turns, are listed one behind the other, and each task with what it read, whatever it is said to have read here.")
    job = Job(f"[{MAP},{reduce_phase(2)}]", number=2**62 - 4096)
    both = two_phases()
    for place in (2, 3, 4, 5, 6, 7, 8, 9):
        job.list(changed(both, place, both[place - 1], re.sub('"reads":.*]', '"reads":[7]', both[place - 1]))[place - 1])
    job.fits()
    job.certify()
    job = Job(f"[{MAP},{MAP}]")
    for text in (an_input("a"), an_input("b"), a_task(f"[{made_at('a', 3)}]"), a_task(f"[{made_at('a', 4)}]", phase="1", position="4"),
                 a_task(f"[{made_at('b', 5)}]", place="1", position="5", reads="[1]"), a_task(phase="1", place="1", position="6", state='"failed"')):
        job.list(text)
    job.fits()
    job.certify()

    print("\n# Reducers: items that name one, and those that don't; failed tasks among the others; a reducer over nothing.")
    for count in (1, 2, 3, 1024):
        job = Job(f"[{reduce_phase(count)},{reduce_phase(2)}]")
        for name, reducer in (("a", None), ("b", 0), ("c", None), ("d", 4294967295), ("e", 1), ("f", None)):
            job.list(an_input(name, reducer=reducer))
        for place in range(min(count, 3)):
            items = f"[{made_at('reduce', 3 + place)},{made_at('x', 3 + place, reducer=place)}]"
            job.list(a_task(items, place=str(place), position=str(3 + place)) if place != 1 else a_task(place="1", position="4", state='"failed"'))
        for place in range(2):
            job.list(a_task(f"[{made_at('reduce', 9 + place)}]", phase="1", place=str(place), position=str(9 + place)))
        job.fits()
        job.certify()

    print("\n# A job that isn't complete has a certificate that is refused.")
    job = Job(f"[{MAP}]")
    job.list(an_input("a"))
    job.fits()
    job.certify()

    print("\n# Phases, names and roots with what JSON escapes.")
    job = Job(f'[{{"assets":["/l/stor/\\"x\\\\"],"exec":"a\\"b\\\\c\\n\\u0001","init":"é","type":"map"}},{MAP}]', number=0)
    job.list(an_input('"\\é'))
    job.list(a_task(f"[{made_at(chr(34) + 'é', 3)}]"))
    job.list(a_task(f"[{made_at(chr(34) + 'é', 4)}]", phase="1", position="4"))
    job.fits()
    job.certify()

    print("\n# Pages of 65,536 bytes: a write a page, and what is left.")
    for times in (600, 601, 700, 2000):
        job = Job(f"[{reduce_phase(1)}]")
        job.list(an_input("a" * 50), times)
        job.list(a_task(f"[{made_at('a', 3)}]"))
        job.fits()
        job.certify(shown=False)
        job.certify(shown=False, fails=1)

    print("\n# A line of 16,777,215 bytes without its line feed is within the limits, and a longer one is not.")
    once = len(an_item()) + 1
    for wanted in (LONGEST_LINE - 1, LONGEST_LINE):
        times, root = divmod(wanted - len(a_task(f"[{an_item(root='')},{an_item()}]")), once)
        job = Job(f"[{MAP}]")
        job.list(an_input("a"))
        job.list(a_task(f"[{an_item(root='r' * root)},{an_item()}]"))
        job.more(times)
        assert len(list(job.lines())[2]) == wanted
        job.fits()
        job.certify(shown=False, room=40000000)


main()
