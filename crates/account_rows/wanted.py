#!/usr/bin/env python3
"""Prints the table of account_rows with the wanted answers: commands are spelled by Python's struct, and an account is that of jobs_rows."""
import importlib.util
import json
import os
import struct

FILE = os.path.join(os.path.dirname(os.path.abspath(__file__)), "..", "jobs_rows", "wanted.py")
SPEC = importlib.util.spec_from_file_location("jobs_wanted", FILE)
lists = importlib.util.module_from_spec(SPEC)
SPEC.loader.exec_module(lists)

AREA = {"stor": 0, "public": 1, "jobs": 2}
FAILURE = 1


# ---- the bytes of commands


def short(data):
    return struct.pack(">H", len(data)) + data


def long(data):
    return struct.pack(">I", len(data)) + data


def spelled_path(name):
    area, *names = lists.path(name)
    return struct.pack(">BH", AREA[area], len(names)) + b"".join(short(it.encode()) for it in names)


def optional(value, spell):
    return b"\0" if value is None else b"\1" + spell(value)


def body(size):
    return struct.pack(">QQ", 8 if size else 0, size)


def phase(said):
    kind = b"\1" + struct.pack(">I", said.get("count", 1)) if said.get("type") == "reduce" else b"\0"
    assets = said.get("assets", [])
    return kind + long(said["exec"].encode()) + optional(said.get("init"), lambda it: long(it.encode())) + bytes([len(assets)]) + b"".join(map(spelled_path, assets))


def line(text):
    return b"\1" + long(text.encode()) if lists.path(text) is None else b"\0" + spelled_path(text)


def record(kind, name, reducer, size):
    if kind == "ref":
        return b"\3" + spelled_path(name)
    if kind == "keep":
        return b"\2" + spelled_path(name) + body(int(size))
    place, number = None if name == "-" else name, None if reducer == "-" else int(reducer)
    return b"\1" + optional(place, spelled_path) + optional(number, lambda it: struct.pack(">I", it)) + body(int(size))


def spelled(moment, call, *words):
    """The bytes of a command: its first byte, its moment, and its fields."""

    def of(first, fields=b""):
        return bytes([first]) + struct.pack(">Q", moment) + fields

    if call == "put":
        return of(1, spelled_path(words[0]) + short(b"text/plain") + body(int(words[1])))
    if call in ("directory", "delete"):
        return of(2 if call == "directory" else 4, spelled_path(words[0]))
    if call == "link":
        return of(3, spelled_path(words[0]) + spelled_path(words[1]))
    if call == "make":
        phases = json.loads(words[0])["phases"]
        return of(5, long(b"") + bytes([len(phases)]) + b"".join(map(phase, phases)))
    job = struct.pack(">Q", int(words[0]))
    if call == "add":
        return of(6, job + struct.pack(">I", len(words) - 1) + b"".join(map(line, words[1:])))
    if call in ("end", "finish", "cancel"):
        return of({"end": 7, "finish": 9, "cancel": 10}[call], job)
    if call == "close":
        return of(12, job + bytes([words[1] == "cancelled"]) + b"".join(body(10 + k) for k in range(5)))
    task = job + struct.pack(">IQ", int(words[1]), int(words[2]))
    if call == "fail":
        return of(8, task + b"\1" + bytes([FAILURE]) + struct.pack(">I", int(words[3])) + short(b""))
    records = [words[k : k + 4] for k in range(3, len(words), 4)]
    return of(8, task + b"\0" + struct.pack(">H", len(records)) + b"".join(record(*it) for it in records))


# ---- the account


class Account(lists.Account):
    def link(self, name, source):
        found = self.rows.get(lists.path(source))
        at = lists.path(name)
        lists.refuse(at[0] == "jobs", "RootDirectory")
        lists.refuse(found is None, "LinkNotFound")
        lists.refuse(found[0] != "object", "LinkNotObject")
        lists.refuse(len(at) == 1, "RootDirectory")
        self.refuse_parent(at)
        lists.refuse(self.is_directory(at), "DirectoryOperation")
        self.rows[at] = found[:3] + (self.moment(),) + found[4:]

    def delete(self, name):
        at = lists.path(name)
        lists.refuse(len(at) == 1 or at[0] == "jobs", "RootDirectory")
        lists.refuse(at not in self.rows, "NotFound")
        lists.refuse(any(it[:-1] == at for it in self.rows if len(it) > 1), "DirectoryNotEmpty")
        del self.rows[at]


account = Account()


def tell(row, answer=None):
    print(row if answer is None else f"{row:<48} => {answer}")


def new():
    global account
    account = Account()
    tell("new")


def count():
    done = sum(it["done"] is not None for it in account.jobs)
    tell("count", f"{account.count} commands, {len(account.jobs) - done} jobs run, {done} are done")


def at(name):
    tell(f"at {name}", " ".join(map(str, account.rows.get(lists.path(name), ("none",))[:4])))


def job(number):
    found = [it for it in account.jobs if it["number"] == number]
    answer = "none"
    for it in found:
        how = "running" if it["done"] is None else "cancelled" if it["cancelled"] else "finished"
        answer = f"{how}, inputs {len(it['inputs'])}, missing {it['missing']}, committed {len(it['trace'])}"
    tell(f"job {number}", answer)


def commands(how, *texts):
    """Each command, with its words in a comment before it."""
    for text in texts:
        call, *words = text.split(" ")
        print(f"# {text}")
        row = f"{how} {spelled(account.moment(), call, *words).hex()}"
        try:
            getattr(account, call)(*words)
        except lists.Refused as why:
            tell(row, why)
            continue
        account.count += 1
        tell(row, f"at {account.count}")


def judged(text, answer):
    """A command that is only judged."""
    call, *words = text.split(" ")
    print(f"# {text}")
    tell(f"judge {spelled(account.moment(), call, *words).hex()}", answer)


def take(*texts):
    commands("take", *texts)


def change(*texts):
    commands("change", *texts)


def main():
    print("# The calls of mt_account on an account of the login l. A command is spelled as the log spells it; its words stand before it.")
    print('# "take" judges it and takes it in one, "change" judges it first; both answer the number of commands after it, or its refusal.')

    lists.comment("What stands at paths: each command, and each refusal.")
    new()
    take("put /l/stor/a 5", "directory /l/stor/d", "put /l/stor/d/b 0", "link /l/stor/d/c /l/stor/a", "delete /l/stor/a")
    at("/l/stor/a")
    at("/l/stor/d")
    at("/l/stor/d/b")
    at("/l/stor/d/c")
    take("put /l/stor 1", "put /l/jobs/x 1", "put /l/stor/e/f 1", "put /l/stor/d 1", "put /l/stor/d/b/x 1", "directory /l/stor/d", "directory /l/jobs/d")
    take("link /l/stor/x /l/stor/a", "link /l/stor/x /l/stor/d", "link /l/jobs/x /l/stor/d/b", "delete /l/stor", "delete /l/stor/a", "delete /l/stor/d")
    change("put /l/public/a 3", "put /l/stor 1", "directory /l/public/d", "link /l/public/l /l/public/a", "link /l/public/l /l/stor/a", "delete /l/public/a", "delete /l/public/a")
    at("/l/public/a")
    at("/l/public/l")
    count()

    lists.comment("A job of two phases, from its document to its archive.")
    new()
    take("put /l/stor/a 5", "put /l/stor/s 7")
    take('make {"phases":[{"exec":"x","assets":["/l/stor/s"]},{"exec":"y","type":"reduce","count":2}]}')
    job(8192)
    at(f"/l/jobs/{lists.identifier(2, 8192)}/stor")
    take("add 8192 /l/stor/a /l/stor/a /l/stor/none", "commit 8192 0 1 emit - 1 4 keep /l/stor/k - 6", "end 8192", "commit 8192 0 0 emit - - 5 ref /l/stor/a - 0")
    at("/l/stor/k")
    job(8192)
    take("fail 8192 1 0 3", "commit 8192 1 0", "commit 8192 2 0", "close 8192 done", "commit 8192 1 1 emit /l/stor/out - 9", "close 8192 done")
    job(8192)
    at("/l/stor/out")
    for name in ("err", "fail", "in", "job", "out"):
        at(f"/l/jobs/{lists.identifier(2, 8192)}/{name}.{'json' if name == 'job' else 'txt'}")
    take("close 8192 cancelled", "add 8192 /l/stor/a", "end 8192", "commit 8192 1 1", "finish 8192", "cancel 8192")
    count()

    lists.comment("The same by judging first; jobs that are finished and cancelled without an archive; refusals.")
    new()
    change('make {"phases":[{"exec":"x","assets":["/l/stor/s"]}]}', 'make {"phases":[{"exec":"x"}]}', "add 0 x", "end 0", "end 0", "add 0 x", "finish 0", "finish 0")
    job(0)
    change('make {"phases":[{"exec":"x"}]}', "put /l/stor/a 1", "add 16384 /l/stor/a", "finish 16384", "close 16384 done", "cancel 16384", "cancel 16384")
    job(16384)
    change("end 4096", "add 4096 x", "commit 4096 0 0", "fail 4096 0 0 1", "finish 4096", "cancel 4096", "close 4096 done")
    judged("put /l/stor/b 1", "allowed")
    judged("put /l/jobs/b 1", "RootDirectory")
    judged("end 16384", "JobState")
    judged('make {"phases":[{"exec":"z"}]}', "allowed")
    at("/l/stor/b")
    count()


if __name__ == "__main__":
    main()
