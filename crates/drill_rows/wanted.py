#!/usr/bin/env python3
"""Prints the wanted table of drill_rows: `python3 wanted.py > stdout`, and stdin by docs/developer/CONTRIBUTING.md.

What a drill's line says is counted here: its requests are asked of tests/model.py, and its tasks are those of tests/turns.py, by commands
that are written here with Python's `hashlib`. Words are read by the grammar of docs/operator/OPERATING.md. Nothing here knows the code.
"""
import hashlib
import pathlib
import re
import struct
import sys

sys.path.insert(0, str(pathlib.Path(__file__).resolve().parents[2] / "tests"))
import turns as tasks  # noqa: E402
from model import Store, identifier  # noqa: E402

PLAIN = {9: "\\t", 10: "\\n", 13: "\\r", 92: "\\x5c"}
NOT_EMPTY = b"mantad: the log is not empty\n"


# Rows.
def escaped(data, blank=" "):
    out = "".join(PLAIN.get(b, chr(b) if 32 <= b <= 126 else f"\\x{b:02x}") for b in data)
    return out if blank == " " else out.replace(" ", blank)


def word(data):
    return escaped(data, "\\s") if data else "\\e"


def answered(row, answer):
    print(f"{row:<48} => {answer}")


def print_lines(data):
    for line in data.splitlines(keepends=True) if data else []:
        mark, text = ("<", line[:-2]) if line.endswith(b"\r\n") else ("<|", line)
        shown = escaped(text)
        shown = shown[:-1] + "\\s" if shown.endswith(" ") else shown
        print(f"    {mark} {shown}" if text else f"    {mark}")


def row(words, status, said=b""):
    answered(words, f"status {status}")
    print_lines(said)


# A drill.
def message(line, body=None, fields=""):
    length = "" if body is None else f"Content-Length: {len(body)}\r\n"
    return f"{line} HTTP/1.1\r\n{fields}{length}\r\n{body or ''}".encode()


def messages(count):
    """What a drill of so many objects asks for, message by message."""
    names = [f"/l/stor/d{i % 16}/o{i}" for i in range(count)]
    job = "/l/jobs/" + identifier(2, 4_096 * (16 + count))
    yield from (message(f"PUT /l/stor/d{k}", "", "Content-Type: application/json; type=directory\r\n") for k in range(16))
    yield from (message(f"PUT {name}", "abc"[i % 3] + "\n") for i, name in enumerate(names))
    yield message("POST /l/jobs", '{"phases":[{"exec":"split"},{"type":"reduce","exec":"count","count":4}]}')
    yield message(f"POST {job}/live/in", "".join(f"{name}\n" for name in names))
    yield message(f"POST {job}/live/in/end", "")


def reducer_of(line):
    return struct.unpack(">I", hashlib.md5(line.rstrip(b"\n")).digest()[:4])[0] % 4


def works(run, data):
    """What a command gives for what it reads."""
    if run.execute == "count":
        return tasks.leaves(b"%d\n" % data.count(b"\n"))
    lines = re.findall(rb"[^\n]*\n|[^\n]+", data)
    parts = [b"".join(it for it in lines if reducer_of(it) == r) for r in range(4)]
    return tasks.leaves(files=[(r, tasks.record_bytes(tasks.Record("emit", None, r, part))) for r, part in enumerate(parts)])


def drilled(count):
    """The account that a drill makes and runs, and its line."""
    store, requests = Store(), 0
    for one in messages(count):
        reply = store.ask(one)
        assert re.match(rb"HTTP/1.1 20[0-4] ", reply), reply
        requests += 1
        tasks.turn(store, works)
    assert tasks.drain(store, works) == ("Idle",)
    job = next(iter(store.jobs.values()))
    given = [next(entry.items[0].body for entry in job.trace if (entry.phase, entry.place) == (1, r)) for r in range(4)]
    lines = b" ".join(body.rstrip(b"\n") for body in given).decode()
    return store, f"drill {count}: requests {requests}, commands {store.count}, tasks {len(job.trace)}, lines {lines}\n".encode()


# Words.
def asked(words):
    """What words behind `drill` ask for, or their first fault."""
    if not words:
        return "NoCount"
    if not re.fullmatch(r"[0-9]{1,19}", words[0]) or not 1 <= int(words[0]) <= 10_000:
        return "BadCount"
    found, rest = {}, words[1:]
    for place in range(0, len(rest), 2):
        name, value = rest[place], rest[place + 1 : place + 2]
        if name not in ("--store", "--at"):
            return f"Usage(UnknownOption {{ word: {place} }})"
        if not value:
            return f"Usage(NoValue {{ word: {place} }})"
        if name in found:
            return f"Usage(Twice {{ word: {place} }})"
        fine = value[0] if name == "--store" else re.fullmatch(r"[0-9]{1,19}", value[0]) and int(value[0]) <= 253_402_300_799
        if not fine:
            return f"Usage(BadValue {{ word: {place + 1} }})"
        found[name] = value[0]
    if "--store" not in found:
        return "Usage(Missing(Store))"
    moment = f", at {int(found['--at'])}" if "--at" in found else ""
    return f"{int(words[0])} objects, store {escaped(found['--store'].encode())}{moment}"


def words(*given):
    answered(" ".join(["words", *(word(one.encode()) for one in given)]), asked(given))


def main():
    print("# Words behind `drill`: a number of objects, and options behind it, whose words are counted from 0.")
    words("10", "--store", "s")
    words("1", "--store", "s", "--at", "0")
    words("10000", "--at", "253402300799", "--store", "a b")
    words("0010", "--store", "--at")
    words()
    for count in ("", "0", "10001", "-1", "+1", "1.0", "ten", "--store", "00000000000000000001"):
        words(count, "--store", "s")
    words("10")
    words("10", "--at", "0")
    words("10", "--store")
    words("10", "--at")
    words("10", "s")
    words("10", "--store", "")
    words("10", "--store", "s", "--at", "253402300800")
    words("10", "--store", "s", "--at", "x")
    words("10", "--store", "s", "--at", "")
    words("10", "--store", "s", "--store", "t")
    words("10", "--at", "0", "--at", "x", "--store", "s")
    words("10", "--store", "s", "--login", "l")
    words("10", "--store", "s", "--slots", "4")
    words("10", "--Store", "s")
    words("10", "--store=s", "x")
    words("10", "--store", "s", "x")
    words("0", "--login", "l")

    print("\n# Drills of new stores.")
    for count in (1, 2, 3, 4, 16, 17, 100, 1000):
        print("new")
        row(f"drill {count}", 0, drilled(count)[1])

    print("\n# The account of a drill, as a session finds it; over it no other drill is run, and none changes it.")
    print("new")
    store, line = drilled(10)
    row("drill 10", 0, line)
    job = f"/l/jobs/{identifier(2, 4_096 * 26)}"
    targets = ["/l/stor/d9", "/l/stor/d9/o9", f"{job}/live/status", f"{job}/live/in", f"{job}/live/out", f"{job}/live/fail", "/l/jobs"]
    targets += [text.decode() for text in store.ask(message(f"GET {job}/live/out")).partition(b"\r\n\r\n")[2].splitlines()]
    for target in targets:
        row(f"ask GET {target}", 0, store.ask(message(f"GET {target}")))
    row("drill 10", 14, NOT_EMPTY)
    row(f"ask GET {job}/live/status", 0, store.ask(message(f"GET {job}/live/status")))
    print("fail writes 0")
    row("drill 1", 14)

    print("\n# A sink that fails within the line: the account is there.")
    print("new")
    print("fail writes 0")
    row("drill 1", 4)
    row("drill 1", 14, NOT_EMPTY)

    print("\n# A disk that fails: at the first call, in a put of a directory, and in a task. What was added by then is there.")
    print("new")
    print("fail disk 0")
    row("drill 1", 5)
    row("drill 1", 0, drilled(1)[1])
    for call in (9, 13):
        print("new")
        print(f"fail disk {call}")
        row("drill 1", 5)
    for call in (40, 120):
        print("new")
        print(f"fail disk {call}")
        row("drill 1", 5)
        row("drill 1", 14, NOT_EMPTY)

    print("\n# Logs that can't be read, one of no version and one of the old; one with nothing but a piece of a body, one with a record that is no command, and one without a record.")
    for head, one, said in (("\\x01", "nothing", b"mantad: the log file is not a mantad log\n"), ("\\x01", "MTLOG001\\x00", b"mantad: log version MTLOG001 is not supported\n")):
        print(f"store {head} {one} \\e")
        row("drill 1", 2, said)
        print("fail writes 0")
        row("drill 1", 2)
    for payload, status, said in ((b"\0hi", 14, NOT_EMPTY), (b"\1hi", 2, b"mantad: unknown record at byte 8 of the log (written by another version?)\n")):
        record = b"\1" + struct.pack(">I", len(payload)) + hashlib.md5(payload).digest() + payload
        print(f"store \\x01 {word(b'MTLOG002' + record + bytes(1))} \\e")
        row("drill 1", status, said)
    print("store \\x01 MTLOG002\\x00 \\e")
    row("drill 1", 0, drilled(1)[1])
    print(f"store \\e {word(b'left behind')} \\e")
    row("drill 1", 0, drilled(1)[1])


main()
