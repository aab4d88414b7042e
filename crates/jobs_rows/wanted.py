#!/usr/bin/env python3
"""Prints the table of jobs_rows with the wanted answers: an account as plain lists, in which each question walks over all there is."""
import json
import uuid

MOST_LINES, MOST_ASSET_BYTES, NUMBERS = 1_000_000, 16_777_216, 4096
AREAS = ("stor", "public", "jobs")


class Refused(Exception):
    pass


def refuse(test, name):
    if test:
        raise Refused(name)


def identifier(kind, number):
    # RFC 9562, version 8: the kind, then the number behind the bit of the variant.
    return str(uuid.UUID(int=(kind << 96) | (8 << 76) | (1 << 63) | number))


def path(text):
    """The path of a text of the login l: its pieces behind the login, or None."""
    pieces = [it for it in text.split("/") if it]
    if not text.startswith("/l/") or len(pieces) < 2 or pieces[1] not in AREAS or "." in pieces[2:] or ".." in pieces[2:]:
        return None
    return tuple(pieces[1:])


def printed(names):
    return "/l/" + "/".join(names)


def ends_in_output(name):
    """Whether a name ends in an identifier of the third kind."""
    try:
        number = uuid.UUID(name[-36:]).int
    except ValueError:
        return False
    return len(name) >= 36 and name[-36:] == identifier(3, number & ((1 << 62) - 1))


class Account:
    def __init__(self):
        self.count = 0
        self.rows = {(area,): ("directory", 0) for area in AREAS}
        self.jobs = []

    def moment(self):
        return 1000 + self.count

    def is_object(self, at):
        return self.rows.get(at, ("none",))[0] == "object"

    def is_directory(self, at):
        return self.rows.get(at, ("none",))[0] == "directory"

    def refuse_parent(self, at):
        refuse(at[:-1] not in self.rows, "DirectoryDoesNotExist")
        refuse(not self.is_directory(at[:-1]), "ParentNotDirectory")

    def put(self, name, size):
        at = path(name)
        refuse(len(at) == 1 or at[0] == "jobs", "RootDirectory")
        self.refuse_parent(at)
        refuse(self.is_directory(at), "DirectoryOperation")
        self.rows[at] = ("object", self.count * NUMBERS, int(size), self.moment(), "text/plain")

    def directory(self, name):
        at = path(name)
        refuse(at[0] == "jobs", "RootDirectory")
        refuse(at in self.rows, "EntityExists")
        self.refuse_parent(at)
        self.rows[at] = ("directory", self.moment())

    # ---- jobs

    def job(self, number):
        found = [it for it in self.jobs if it["number"] == int(number)]
        refuse(not found, "JobNotFound")
        return found[0]

    def make(self, text):
        phases = json.loads(text)["phases"]
        assets = [[path(it) for it in phase.get("assets", [])] for phase in phases]
        refuse(not all(self.is_object(it) for names in assets for it in names), "NotFound")
        refuse(any(sum(self.rows[it][2] for it in names) > MOST_ASSET_BYTES for names in assets), "AssetsTooLarge")
        number = self.count * NUMBERS
        kinds = [phase.get("count", 1) if phase.get("type") == "reduce" else "map" for phase in phases]
        bodies = [[self.rows[it][2] for it in names] for names in assets]
        self.jobs.append(dict(number=number, phases=phases, kinds=kinds, assets=bodies, inputs=[], missing=0, ended=False, done=None, cancelled=False, trace=[]))
        for names in (self.folder(number), self.folder(number, "stor")):
            self.rows[names] = ("directory", self.moment())

    @staticmethod
    def folder(number, *names):
        return ("jobs", identifier(2, number)) + names

    def refuse_closed(self, job):
        refuse(job["ended"] or job["done"] is not None, "JobState")

    def add(self, number, *lines):
        job = self.job(number)
        self.refuse_closed(job)
        refuse(len(job["inputs"]) + job["missing"] + len(lines) > MOST_LINES, "TooManyInputs")
        for line in lines:
            at = path(line)
            if at is not None and self.is_object(at):
                root = at[-1] if len(at[-1].encode()) <= 200 else "input"
                job["inputs"].append(dict(name=at, root=root, body=self.rows[at][2], reducer=None))
            else:
                job["missing"] += 1

    def lines(self, number, count):
        self.add(number, *["x"] * int(count))

    def fed(self, number, name, count):
        self.add(number, *[name] * int(count))

    def made(self, count, name):
        for _ in range(int(count)):
            self.make(job("map"))
            number = self.count * NUMBERS
            self.count += 1
            self.add(number, name)
            self.count += 1
        self.count -= 1

    def end(self, number):
        job = self.job(number)
        self.refuse_closed(job)
        job["ended"] = True

    # ---- tasks

    @staticmethod
    def feed(job, phase):
        if phase == 0:
            return job["inputs"]
        return [it for entry in job["trace"] if entry["phase"] == phase - 1 for it in entry["items"] or []]

    def places(self, job, phase):
        kind = job["kinds"][phase]
        return range(len(self.feed(job, phase)) if kind == "map" else kind)

    @staticmethod
    def is_committed(job, phase, place):
        # The set is made anew of the whole trace where it has grown.
        if job.get("seen", (0, set()))[0] != len(job["trace"]):
            job["seen"] = (len(job["trace"]), {(entry["phase"], entry["place"]) for entry in job["trace"]})
        return (phase, place) in job.get("seen", (0, set()))[1]

    def is_complete(self, job, phase):
        return all(self.is_committed(job, phase, it) for it in self.places(job, phase))

    def may_run(self, job, phase, place):
        if job["done"] is not None or phase >= len(job["kinds"]) or place not in self.places(job, phase):
            return False
        return job["kinds"][phase] == "map" or job["ended"] and all(self.is_complete(job, it) for it in range(phase))

    def ready(self):
        return [
            (job["number"], phase, place)
            for job in self.jobs
            for phase in range(len(job["kinds"]))
            for place in self.places(job, phase)
            if self.may_run(job, phase, place) and not self.is_committed(job, phase, place)
        ]

    def waits(self, job):
        return job["done"] is None and job["ended"] and all(self.is_complete(job, it) for it in range(len(job["kinds"])))

    def read(self, job, phase, place):
        items, kind = self.feed(job, phase), job["kinds"][phase]
        if kind == "map":
            return items[place : place + 1]
        return [it for k, it in enumerate(items) if (k if it["reducer"] is None else it["reducer"]) % kind == place]

    # ---- commits

    def refuse_commit(self, job, phase, place):
        refuse(job["done"] is not None, "JobState")
        refuse(not self.may_run(job, phase, place), "NotATask")
        refuse(self.is_committed(job, phase, place), "AlreadyCommitted")

    def enter(self, job, phase, place, items, failure):
        job["trace"].append(dict(phase=phase, place=place, position=self.count, items=items, failure=failure))

    def fail(self, number, phase, place, status):
        job, phase, place = self.job(number), int(phase), int(place)
        self.refuse_commit(job, phase, place)
        self.enter(job, phase, place, None, ("UserTaskError", int(status)))

    def commit(self, number, phase, place, *words):
        job, phase, place = self.job(number), int(phase), int(place)
        self.refuse_commit(job, phase, place)
        root = "reduce" if job["kinds"][phase] != "map" else self.feed(job, phase)[place]["root"]
        rows, items, self.index = dict(self.rows), [], 0
        try:
            for k in range(0, len(words), 4):
                items += self.take(rows, job, phase, root, *words[k : k + 4])
        except Refused as why:
            return self.enter(job, phase, place, None, (str(why), 0))
        self.rows = rows
        self.enter(job, phase, place, items, None)

    def emitted(self, number, phase, place, count):
        self.commit(number, phase, place, *["emit", "-", "-", "1"] * int(count))

    def committed(self, number, count):
        for place in range(int(count)):
            self.commit(number, 0, place)
            self.count += 1
        self.count -= 1

    def take(self, rows, job, phase, root, kind, name, reducer, size):
        at = None if name == "-" else path(name)
        reducer = None if reducer == "-" else int(reducer)
        if kind == "ref":
            refuse(rows.get(at, ("none",))[0] != "object", "TaskObjectMissing")
            return [dict(name=at, root=root, body=rows[at][2], reducer=None)]
        number = self.count * NUMBERS + self.index
        if at is None:
            at = self.folder(job["number"], "stor", f"{root}.{phase}.{identifier(3, number)}")
        else:
            refuse(not self.can_hold(rows, job, at), "TaskPlaceRefused")
        for k in range(1, len(at)):
            rows.setdefault(at[:k], ("directory", self.moment()))
        rows[at] = ("object", number, int(size), self.moment(), "application/octet-stream")
        self.index += 1
        return [dict(name=at, root=root, body=int(size), reducer=reducer)] if kind == "emit" else []

    def can_hold(self, rows, job, at):
        if at[0] == "jobs":
            below = self.folder(job["number"], "stor")
            if len(at) < 4 or at[:3] != below or ends_in_output(at[3]):
                return False
        elif len(at) == 1:
            return False
        return rows.get(at, ("none",))[0] != "directory" and not any(rows.get(at[:k], ("none",))[0] == "object" for k in range(1, len(at)))

    # ---- ends

    def set_done(self, job, cancelled):
        job["done"], job["cancelled"] = self.moment(), cancelled

    def finish(self, number):
        job = self.job(number)
        refuse(job["done"] is not None, "JobState")
        refuse(not self.waits(job), "NotComplete")
        self.set_done(job, False)

    def cancel(self, number):
        job = self.job(number)
        refuse(job["done"] is not None, "JobState")
        self.set_done(job, True)

    def close(self, number, how):
        job = self.job(number)
        refuse(job["done"] is not None, "JobState")
        refuse(how != "cancelled" and not self.waits(job), "NotComplete")
        types = ("application/x-json-stream", "text/plain", "text/plain", "application/json", "text/plain")
        for k, (name, kind) in enumerate(zip(("err.txt", "fail.txt", "in.txt", "job.json", "out.txt"), types)):
            at = self.folder(job["number"], name)
            self.rows[at] = ("object", self.count * NUMBERS + k, 10 + k, self.moment(), kind)
        self.set_done(job, how == "cancelled")


class Listing(Account):
    """Jobs that are taken from a list, of an account of so many commands: each by the rules of lawful jobs."""

    def __init__(self, count):
        super().__init__()
        self.count = count

    def take(self, text, number, inputs, missing):
        phases, number, inputs, missing = json.loads(text)["phases"], int(number), int(inputs), int(missing)
        above = all(it["number"] < number for it in self.jobs)
        if number % NUMBERS or number >= self.count * NUMBERS or not above or inputs + missing > MOST_LINES:
            return False
        kinds = [phase.get("count", 1) if phase.get("type") == "reduce" else "map" for phase in phases]
        assets = [[1] * len(phase.get("assets", [])) for phase in phases]
        self.jobs.append(dict(number=number, phases=phases, kinds=kinds, assets=assets, inputs=self.items(inputs), missing=missing, ended=False, done=None, cancelled=False, trace=[]))
        return True

    @staticmethod
    def items(count):
        return [dict(name=("stor", "a"), root="root", body=k + 1, reducer=None) for k in range(count)]

    def last(self):
        """The last job, where it runs."""
        return next((it for it in self.jobs[-1:] if it["done"] is None), None)

    def ended(self):
        job = self.last()
        if job is None or job["ended"]:
            return False
        job["ended"] = True
        return True

    def entry(self, phase, place, position, outputs):
        job, phase, place, position = self.last(), int(phase), int(place), int(position)
        if job is None or not self.may_run(job, phase, place) or self.is_committed(job, phase, place):
            return False
        if position >= self.count or any(it["position"] >= position for it in job["trace"][-1:]):
            return False
        job["trace"].append(dict(phase=phase, place=place, position=position, items=self.items(int(outputs)), failure=None))
        return True

    def entries(self, count, first):
        """The first tasks of the first phase: place and position rise together, so that no test walks over what is there."""
        job, count, first = self.last(), int(count), int(first)
        good = 0 if job is None or job["trace"] else max(0, min(count, len(job["inputs"]), self.count - first))
        if good:
            job["trace"] = [dict(phase=0, place=k, position=first + k, items=[], failure=None) for k in range(good)]
        return good == count

    def done(self, moment, how):
        job = self.last()
        if job is None or how != "cancelled" and not self.waits(job):
            return False
        job["done"], job["cancelled"] = int(moment), how == "cancelled"
        return True


account = Account()
LISTED = ("take", "ended", "entry", "entries", "done")
CHANGES = ("put", "directory", "make", "add", "lines", "end", "commit", "fail", "finish", "cancel", "close", "fed", "emitted", "committed", "made")


def changed(words):
    try:
        getattr(account, words[0])(*words[1:])
    except Refused as why:
        return str(why)
    account.count += 1
    return f"at {account.count}"


def told_item(it):
    return f"{printed(it['name'])} root {it['root']} body {it['body']}" + ("" if it["reducer"] is None else f" reducer {it['reducer']}")


def told_job(job):
    how = "running" if job["done"] is None else f"{'cancelled' if job['cancelled'] else 'finished'} at {job['done']}"
    facts = f"{how}, inputs {len(job['inputs'])}{' ended' if job['ended'] else ''}, missing {job['missing']}, assets" + "".join(f" | {' '.join(map(str, it))}".rstrip() for it in job["assets"])
    for entry in job["trace"]:
        came = f"outputs {len(entry['items'])}" if entry["failure"] is None else "{} {}".format(*entry["failure"])
        facts += f"\n    {entry['phase']} {entry['place']} at {entry['position']}: {came}"
    return facts


def told_order(job, phase, place):
    """What the command of a task is run with."""
    said, items = job["phases"][phase], account.read(job, phase, place)
    is_map = job["kinds"][phase] == "map"
    folder = printed(account.folder(job["number"], "stor"))
    facts = [
        f"{job['number']} {phase} exec {said['exec']}",
        f"init {said.get('init', '-')}",
        f"base {folder}/{items[0]['root'] if is_map else 'reduce'}.{phase}.",
        f"object {printed(items[0]['name']) if is_map else '-'}",
        *([] if is_map else [f"reducer {place}"]),
        f"reads {sum(it['body'] for it in items)}",
        *[f"asset {name} {size}" for name, size in zip(said.get("assets", []), job["assets"][phase])],
    ]
    return ", ".join(facts)


def asked(words):
    if words[0] == "list":
        return f"{len(account.jobs)} jobs"
    if words[0] in LISTED:
        return "taken" if getattr(account, words[0])(*words[1:]) else "refused"
    call, numbers = words[0], [int(it) for it in words[1:] if it.isdigit()]
    found = [it for it in account.jobs if numbers and it["number"] == numbers[0]]
    if call == "ready":
        skip = [tuple(numbers[k : k + 3]) for k in range(0, len(numbers), 3)]
        left = [it for it in account.ready() if it not in skip]
        waits = [str(it["number"]) for it in account.jobs if account.waits(it)]
        return (" ".join(map(str, left[0])) if left else "-") + (f", {waits[0]} waits" if waits else "")
    if call == "page":
        stood = [it["number"] for it in account.jobs if (it["done"] is None) == (words[1] == "running")]
        return " ".join(map(str, [f"of {len(stood)}:"] + [it for it in stood if it >= numbers[0]][: numbers[1]]))
    if call == "looked":
        return str(sum(it["body"] for it in account.feed(found[0], 0)[: numbers[1]]))
    if call == "asked":
        return str(sum(it[0] for it in account.ready()[numbers[1] :][:1]) * numbers[0])
    if call == "at":
        return " ".join(map(str, account.rows.get(path(words[1]), ("none",))))
    if call == "order":
        return told_order(*found, *numbers[1:]) if tuple(numbers) in account.ready() else "not ready"
    if call == "size" and tuple(numbers) not in account.ready():
        return "not ready"
    if not found:
        return "none"
    if call == "job":
        return told_job(found[0])
    _, phase, place = numbers[:3]
    if phase >= len(found[0]["kinds"]):
        return "none"
    if call == "item":
        items = account.feed(found[0], phase)[place : place + 1]
        return told_item(items[0]) if items else "none"
    if not account.may_run(found[0], phase, place) or account.is_committed(found[0], phase, place):
        return "not ready"
    if call == "size":
        size = sum(it["body"] for it in account.read(found[0], phase, place))
        return f"{len(account.read(found[0], phase, place))} items, {size if size < 1 << 64 else 'too many'} bytes"
    return ", ".join(map(told_item, account.read(found[0], phase, place))) or "nothing"


def row(text):
    global account
    words = text.split(" ")
    if words[0] == "new":
        account = Account()
        return print("new")
    if words[0] == "listing":
        account = Listing(int(words[1]))
        return print(text)
    answer = changed(words) if words[0] in CHANGES else asked(words)
    first, *more = answer.split("\n")
    print("\n".join([f"{text:<48} => {first}"] + more))


def comment(text):
    print(f"\n# {text}")


def job(*kinds, **more):
    phases = [{"exec": "x", **({} if it == "map" else {"type": "reduce", "count": it}), **more} for it in kinds]
    return json.dumps({"phases": phases}, separators=(",", ":"))


def rows(*texts):
    for text in texts:
        row(text)


def main():
    print("# The calls of mt_jobs on an account of the login l. A change answers the number of commands after it, or its refusal; its")
    print("# moment is 1000 and the number of commands before it. The answers come of wanted.py, which keeps plain lists.")

    comment("One map phase: two lines name one object, one names none; a task is committed before the input has ended.")
    rows("new", "put /l/stor/a 5", f"make {job('map')}", "job 4096", "ready")
    rows("add 4096 /l/stor/a /l/stor/a /l/stor/none", "ready", "item 4096 0 1", "item 4096 0 2", "item 4096 1 0", "item 0 0 0", "read 4096 0 0", "read 4096 0 2")
    rows("commit 4096 0 0 emit - - 5", "ready", "ready 4096 0 1", "finish 4096", "end 4096", "end 4096", "add 4096 /l/stor/a")
    rows("commit 4096 0 1 emit - - 5", "ready", "finish 4096", "finish 4096", "ready", "job 4096")
    rows(f"at /l/jobs/{identifier(2, 4096)}", f"at /l/jobs/{identifier(2, 4096)}/stor/a.0.{identifier(3, 3 * 4096)}", f"at /l/jobs/{identifier(2, 4096)}/stor/a.0.{identifier(3, 5 * 4096)}")

    comment("A job that is done takes nothing any more, and no other job is there.")
    rows("add 4096", "commit 4096 0 0", "cancel 4096", "close 4096 cancelled", "page running 0 9", "page done 0 9")
    rows("add 0 x", "end 1", "commit 8192 0 0", "fail 2 0 0 1", "finish 3", "cancel 4", "close 5 done", "job 6", "read 7 0 0")

    comment("Map and reduce: the feed of the second phase is in the order of the commits, and its shares by its places.")
    rows("new", "put /l/stor/a 1", "put /l/stor/b 2", "put /l/stor/c 3", f"make {job('map', 2)}", "add 12288 /l/stor/a /l/stor/b /l/stor/c", "ready", "commit 12288 1 0")
    rows("commit 12288 0 2 emit - - 30", "end 12288", "ready", "read 12288 1 0", "commit 12288 0 0 emit - - 10", "ready 12288 0 1", "commit 12288 1 1")
    rows("commit 12288 0 1 emit - - 20", "ready", "ready 12288 1 0", "ready 12288 1 1", "ready 12288 1 0 12288 1 1", "read 12288 1 0", "read 12288 1 1", "read 12288 1 2", "item 12288 1 2")
    rows("commit 12288 1 1 emit - - 7", "commit 12288 1 1 emit - - 7", "commit 12288 0 1", "finish 12288", "commit 12288 1 0 emit - - 8", "finish 12288", "job 12288", "item 12288 1 0")

    comment("Reducers over nothing; a reducer that an output names, and one that it does not.")
    rows("new", f"make {job(3)}", "ready", "end 0", "ready", "read 0 0 2", "commit 0 0 0 emit - - 2", "commit 0 0 1 emit - - 2", "commit 0 0 2 emit - - 2", "ready", "finish 0", "job 0")
    rows("new", "put /l/stor/a 1", f"make {job('map', 3)}", "add 4096 /l/stor/a", "end 4096")
    rows("commit 4096 0 0 emit - 2 1 emit - 4294967295 2 emit - - 3 emit - 5 4 emit - - 5", "read 4096 1 0", "read 4096 1 1", "read 4096 1 2", "item 4096 1 1")

    comment("Phases one after another: a map phase may run while the one before it does.")
    rows("new", "put /l/stor/a 1", f"make {job('map', 'map', 2, 'map')}", "add 4096 /l/stor/a /l/stor/a", "commit 4096 0 1 emit - - 1 emit - - 2", "ready 4096 0 0", "commit 4096 1 1 emit - - 3")
    rows("commit 4096 1 0", "ready", "commit 4096 0 0", "ready", "commit 4096 2 0", "end 4096", "ready", "read 4096 2 0", "commit 4096 2 0 emit - - 4", "ready", "commit 4096 3 0 emit - - 5", "ready", "fail 4096 2 1 3", "ready", "finish 4096", "job 4096")

    comment("Records with places: missing parents are made, and each object has the next number.")
    rows("new", "put /l/stor/a 1", f"make {job('map', 'map')}", "add 4096 /l/stor/a /l/stor/a /l/stor/a /l/stor/a /l/stor/a /l/stor/a /l/stor/a")
    rows("commit 4096 0 0 emit /l/stor/p/q - 5 emit - - 6", "at /l/stor/p", "at /l/stor/p/q", "item 4096 1 0", "item 4096 1 1")
    rows("commit 4096 0 1 keep /l/stor/k - 5 emit - - 0", "at /l/stor/k", "item 4096 1 2", "item 4096 1 3")
    rows("commit 4096 0 2 emit /l/stor/p/q - 8 ref /l/stor/p/q - - ref /l/stor/a - -", "at /l/stor/p/q", "item 4096 1 3", "item 4096 1 4", "item 4096 1 5")
    rows("put /l/stor/p/q 9", "item 4096 1 4")
    below = f"/l/jobs/{identifier(2, 4096)}/stor"
    rows(f"commit 4096 0 3 emit {below}/d/e - 5", f"at {below}/d", f"at {below}/d/e", "commit 4096 0 4 emit /l/public/x - 5 keep /l/public/x - 6", "at /l/public/x")

    comment("Refused records: the task has failed, and what its earlier records changed is taken back.")
    rows("commit 4096 0 5 emit /l/stor/n/m - 1 keep /l/stor/a - 2 emit - - 3 ref /l/stor/none - -", "at /l/stor/n", "at /l/stor/n/m", "at /l/stor/a", f"at {below}/a.0.{identifier(3, 10 * 4096 + 2)}", "job 4096")
    rows("commit 4096 0 6 keep /l/stor/n/m - 1 emit /l/stor/n - 2", "at /l/stor/n", "item 4096 1 7", "end 4096", "job 4096")
    places = ["/l/stor", "/l/stor/d", "/l/stor/a/b", "/l/jobs", below, f"{below}/a.0.{identifier(3, 1)}", f"{below}/a.0.{identifier(3, 1)}/b", f"{below}/a.0.{identifier(2, 1)}", f"/l/jobs/{identifier(2, 0)}/stor/d", f"/l/jobs/{identifier(2, 4096)}/x"]
    rows("new", "put /l/stor/a 1", f"make {job('map')}", "directory /l/stor/d", "add 4096 " + " ".join(["/l/stor/a"] * len(places)))
    rows(*[f"commit 4096 0 {k} emit {it} - 2" for k, it in enumerate(places)], "ready", "job 4096", "at /l/stor/d", f"at {places[7]}")

    comment("A failed task gives nothing to the next phase.")
    rows("new", "put /l/stor/a 1", f"make {job('map', 1)}", "add 4096 /l/stor/a /l/stor/a", "end 4096", "fail 4096 0 1 3", "fail 4096 0 1 3", "commit 4096 0 0 emit - - 2", "read 4096 1 0", "job 4096")

    comment("What the command of a task is run with.")
    rows("new", "put /l/stor/a 16", "put /l/stor/b 2", f"make {job('map', 'map', 3, exec='wc', init='true', assets=['/l/stor/a', '/l/stor/b'])}", f"make {job('map')}")
    rows("order 8192 0 0", "add 8192 /l/stor/b /l/stor/a", "add 12288 /l/stor/a", "put /l/stor/b 3", "order 8192 0 0", "order 8192 0 1", "order 8192 0 2", "order 12288 0 0", "order 8192 3 0", "order 1 0 0")
    rows("commit 8192 0 1 emit /l/stor/d/e - 5 emit - - 6", "order 8192 1 0", "order 8192 1 1", "order 8192 2 0", "commit 8192 0 0", "commit 8192 1 1 emit - 2 7 emit - 5 8 emit - - 9", "commit 8192 1 0", "order 8192 2 2", "end 8192")
    rows("order 8192 2 0", "order 8192 2 1", "order 8192 2 2", "order 8192 2 3", "commit 8192 2 2", "order 8192 2 2", "cancel 12288", "order 12288 0 0")
    rows(f"make {job('map')}", f"put /l/stor/{'n' * 201} 4", f"add {4096 * 14} /l/stor/{'n' * 201}", f"order {4096 * 14} 0 0")

    comment("An input keeps the body that its object held, and a long name gives another root.")
    long = "n" * 201
    rows("new", "put /l/stor/a 1", f"put /l/stor/{long[:200]} 2", f"put /l/stor/{long} 3", f"make {job('map')}", f"add 12288 /l/stor/a /l/stor/{long[:200]} /l/stor/{long} /l/stor /m/stor/a l")
    rows("put /l/stor/a 9", "item 12288 0 0", "item 12288 0 1", "item 12288 0 2", "job 12288")

    comment("A cancelled job: its tasks are no tasks any more, and its input is closed.")
    rows("new", "put /l/stor/a 1", f"make {job('map')}", f"make {job('map')}", "add 8192 /l/stor/a", "add 4096 /l/stor/a /l/stor/a", "ready", "ready 4096 0 0 4096 0 1", "commit 4096 0 0 emit - - 1")
    rows("cancel 4096", "cancel 4096", "ready", "commit 4096 0 1", "end 4096", "add 4096 x", "finish 4096", "read 4096 0 1", "item 4096 0 1", "job 4096", "page running 0 9", "page done 0 9")

    comment("A job is closed with the five objects of its archive.")
    rows("close 8192 done", "end 8192", "close 8192 done", "commit 8192 0 0", "close 8192 done", "job 8192")
    rows(*[f"at /l/jobs/{identifier(2, 8192)}/{name}" for name in ("err.txt", "fail.txt", "in.txt", "job.json", "out.txt", "stor", "none")])
    rows(f"make {job('map')}", "close 45056 cancelled", "job 45056", f"at /l/jobs/{identifier(2, 45056)}/out.txt")

    comment("Assets: each is an object, and those of a phase have at most 16 MiB together. A job keeps their bodies.")
    rows("new", "put /l/stor/a 16777216", "put /l/stor/b 1", "put /l/stor/c 16777215")
    rows(f"make {job('map', assets=['/l/stor/a'])}", f"make {job('map', 2, assets=['/l/stor/b', '/l/stor/c'])}", f"make {job('map', assets=['/l/stor/a', '/l/stor/b'])}", f"make {job('map', assets=['/l/stor/none', '/l/stor/a', '/l/stor/a'])}", f"make {job('map', assets=['/l/stor'])}")
    rows("put /l/stor/b 2", "job 12288", "job 16384")

    comment("A job has at most 1,000,000 inputs and missing lines together.")
    rows("new", "put /l/stor/a 1", f"make {job('map')}", "lines 4096 1000001", "add 4096 /l/stor/a", "lines 4096 1000000", "lines 4096 999999", "add 4096 x", "add 4096", "job 4096")

    comment("A task has at most 4,095 outputs.")
    rows("new", "put /l/stor/a 1", f"make {job('map', 2)}", "add 4096 /l/stor/a /l/stor/a", "end 4096", "emitted 4096 0 0 4094", "emitted 4096 0 1 4095", "item 4096 1 4094", "item 4096 1 8188", "item 4096 1 8189")
    rows("size 4096 1 0", "size 4096 1 1", "put /l/stor/b 1", "emitted 4096 1 0 4095", "job 4096", f"at /l/jobs/{identifier(2, 4096)}/stor/reduce.1.{identifier(3, 7 * 4096 + 4094)}")

    comment("How many items a ready task reads, and how many bytes: a sum of 2^64 has no number.")
    rows("new", f"put /l/stor/a {1 << 63}", f"put /l/stor/b {(1 << 63) - 1}", "put /l/stor/c 1", "put /l/stor/d 0", f"make {job('map', 3)}")
    rows("add 16384 /l/stor/a /l/stor/b /l/stor/c /l/stor/d", *[f"size 16384 0 {k}" for k in range(5)], "size 16384 1 0", "size 0 0 0", "end 16384")
    rows("commit 16384 0 0 ref /l/stor/a - - ref /l/stor/a - -", "commit 16384 0 1 ref /l/stor/d - -", "commit 16384 0 2 ref /l/stor/b - -", "commit 16384 0 3 ref /l/stor/b - -", *[f"size 16384 1 {k}" for k in range(4)])
    rows("new", f"put /l/stor/a {1 << 63}", f"put /l/stor/b {(1 << 63) - 1}", "put /l/stor/c 1", f"make {job('map', 2)}", "add 12288 /l/stor/a", "end 12288")
    rows("commit 12288 0 0 ref /l/stor/a - - ref /l/stor/a - - ref /l/stor/b - - ref /l/stor/b - - ref /l/stor/c - -", "size 12288 1 0", "size 12288 1 1")

    comment("Pages of jobs, by number.")
    rows("new", *[f"make {job('map')}"] * 7, "cancel 4096", "cancel 12288", "cancel 20480", "page running 0 9", "page running 8192 2", "page running 8193 2", "page running 99999 2", "page done 0 2", "page done 20480 2", "page done 0 0", "page done 4097 9")
    rows("end 0", "ready", "finish 0", "ready", "finish 8192")

    comment("Jobs that are listed, and taken from the list part by part, are the jobs that commands made: the same questions have the same answers.")
    rows("new", "list", "ready", "page running 0 9", "put /l/stor/a 1", f"make {job('map', 2)}", "list", "ready", "job 4096", "add 4096 /l/stor/a /l/stor/a /l/stor/a x", "list", "ready", "read 4096 0 2", "item 4096 0 3", "job 4096")
    rows("commit 4096 0 2 emit - - 30 emit - 1 31", "list", "ready", "ready 4096 0 0", "read 4096 0 2", "item 4096 1 0", "item 4096 1 1", "item 4096 1 2", "job 4096")
    rows("fail 4096 0 0 7", "end 4096", "commit 4096 0 1 emit - - 10", "list", "ready", "ready 4096 1 0", "read 4096 1 0", "read 4096 1 1", "size 4096 1 1", "order 4096 1 1", "job 4096")
    rows("commit 4096 1 1 emit - - 5", "list", "ready", "read 4096 1 0", "read 4096 1 1", "commit 4096 1 0 emit - - 6", "list", "ready", "job 4096", "page running 0 9")
    rows(f"make {job('map')}", f"make {job(2)}", f"make {job('map', 'map', 3, 'map', assets=['/l/stor/a'])}", "finish 4096", f"add {11 * 4096} /l/stor/a", f"cancel {9 * 4096}", f"end {10 * 4096}", "list", "ready", f"ready {10 * 4096} 0 0 {10 * 4096} 0 1", f"read {10 * 4096} 0 1", "page running 0 9", "page done 0 9", "job 4096", f"job {9 * 4096}", f"job {10 * 4096}", f"job {11 * 4096}")
    rows(f"commit {11 * 4096} 0 0 emit - 1 8 emit - - 9", f"commit {11 * 4096} 1 1 emit - - 7", f"end {11 * 4096}", f"commit {11 * 4096} 1 0", f"commit {11 * 4096} 2 0 emit - - 4", "list", "ready", f"ready {10 * 4096} 0 0 {10 * 4096} 0 1 {11 * 4096} 2 1", f"read {11 * 4096} 2 1", f"read {11 * 4096} 3 0", f"size {11 * 4096} 2 2", f"job {11 * 4096}")

    comment("A list of an account of 8 commands: the number of a job is the first of a command so far, and above the others.")
    rows("listing 8", "ready", f"take {job('map')} 4097 0 0", f"take {job('map')} 32768 0 0", f"take {job('map')} 0 0 0", f"take {job('map')} 0 1 0", f"take {job('map', 2)} 8192 3 1", f"take {job('map')} 4096 1 0", f"take {job('map')} 8192 1 0", f"take {job('map')} 28672 0 0", f"take {job('map')} 28671 0 0", f"take {job('map')} 18446744073709551615 0 0", "page running 0 9", "ready", "read 8192 0 1", "job 8192")
    rows("listing 0", f"take {job('map')} 0 0 0", "ended", "entry 0 0 0 0", "done 1000 cancelled", "page running 0 9", "listing 1125899906842623", f"take {job('map')} {4096 * ((1 << 50) - 1)} 0 0", f"take {job('map')} {4096 * ((1 << 50) - 2)} 1 0", f"entry 0 0 {(1 << 50) - 1} 0", f"entry 0 0 {(1 << 50) - 2} 0", "ready")

    comment("It has at most 1,000,000 inputs and missing lines.")
    rows("listing 1", f"take {job('map')} 0 2 999999", f"take {job('map')} 0 0 1000001", "page running 0 9", f"take {job('map')} 0 1 999999", "job 0", "ready")

    comment("The input of the last job ends once, and before it is done.")
    rows("listing 3", f"take {job('map')} 0 0 0", "ready", "ended", "ended", "ready", "done 1000 finished", "ended", "ready", "job 0", f"take {job('map')} 4096 0 0", "done 1001 cancelled", "ended", "done 1001 cancelled", "job 4096")

    comment("An entry is of a task that may run and is not committed, at a position of a command so far and behind that of the entry before.")
    rows("listing 9", f"take {job('map', 'map', 2)} 0 2 0", "entry 0 2 3 0", "entry 3 0 3 0", "entry 4294967295 0 3 0", "entry 1 0 3 0", "entry 2 0 3 0", "entry 0 1 9 1", "entry 0 1 18446744073709551615 1", "entry 0 1 3 2", "entry 0 1 4 2", "entry 0 0 3 0", "entry 0 0 2 0", "entry 1 2 4 0", "entry 1 1 4 1")
    rows("ready", "ready 0 0 0", "entry 2 0 5 0", "ended", "entry 2 0 5 0", "entry 0 0 5 0", "entry 2 0 6 0", "entry 1 0 6 3", "entry 2 2 7 0", "read 0 2 0", "read 0 2 1", "entry 2 1 7 1", "ready", "entry 2 0 8 4095", "entry 2 0 8 0", "ready", "job 0")

    comment("It is done where it is cancelled, or its input has ended and each task is committed.")
    rows("listing 9", "done 1000 cancelled", f"take {job('map', 2)} 0 1 0", "done 1000 finished", "ended", "done 1000 finished", "entry 0 0 1 2", "done 1000 finished", "entry 1 1 2 0", "done 1000 finished", "entry 1 0 3 0", "ready", "done 1000 finished", "done 1000 finished", "entry 1 0 4 0", "ready", "job 0", "page done 0 9")
    rows(f"take {job('map')} 4096 2 0", "entry 0 1 4 0", "done 1001 cancelled", "ready", "entry 0 0 5 0", "job 4096", "page running 0 9", "page done 0 9")

    comment("A job of 100,000 entries; the one behind the last is refused.")
    rows("listing 100009", f"take {job('map', 3)} 0 100000 0", "entries 100001 4", "ready", "ended", "ready", "size 0 1 2", "looked 0 100000", "entry 1 2 100003 0", "entry 1 2 100004 0", "ready")

    comment("Much at once, as bench/jobs asks for it.")
    rows("new", "put /l/stor/a 3", f"make {job('map')}", "fed 4096 /l/stor/a 1000", "looked 4096 1000", "asked 2 64", "committed 4096 990", "ready", "looked 4096 2000")
    rows("new", "put /l/stor/a 3", "made 100 /l/stor/a", "ready", "asked 1000 64", "asked 3 1", "committed 4096 1", "asked 1 64", "asked 1 0", "page running 700000 9")

    comment("The next task a million times: 2,000 of which one is left, and then none.")
    rows("new", "put /l/stor/a 3", f"make {job('map')}", "fed 4096 /l/stor/a 2000", "committed 4096 1999", "ready", "asked 1000000 0", "commit 4096 0 1999", "asked 1000000 0")


if __name__ == "__main__":
    main()
