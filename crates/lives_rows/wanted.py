#!/usr/bin/env python3
"""Prints the wanted table of lives_rows: `python3 wanted.py > stdout`, and stdin by docs/developer/CONTRIBUTING.md.

A life is that of tests/model.py with the turns of session_rows' children; what a crash leaves of it is what the model was before the call or
behind it, by the calls that README.md of mt_log and docs/proof/FORMATS.md count of a command. Nothing here knows the code.
"""
import collections
import copy
import importlib.util
import pathlib

FILE = pathlib.Path(__file__).resolve().parents[1] / "session_rows" / "wanted.py"
SPEC = importlib.util.spec_from_file_location("session_wanted", FILE)
sessions = importlib.util.module_from_spec(SPEC)
SPEC.loader.exec_module(sessions)

PICKS = ["nothing", "zeros", "ones", "half", "whole"]
JOB_TEXTS = ("err", "fail", "in", "status", "out")
# A call of the disk: the position that was told before it, the store that stood before its command and the one behind it where the call
# opens the gate or syncs it, and whether it reads an input.
Call = collections.namedtuple("Call", "told before behind reads")
# A life: its calls, the position told behind each message, its status, and how many calls of its children failed.
Life = collections.namedtuple("Life", "calls told status faults store")
# A store between two lives: how many lives there were, how many messages are in it, and how many calls an opening makes.
Place = collections.namedtuple("Place", "store life past opening")


def first():
    return Place(sessions.Store(), 0, 0, sessions.OPENING)


class Crew(sessions.Crew):
    """Children that write a word and what they read. Of each start the reads of its input are counted."""

    def __init__(self, store, word, **script):
        super().__init__(**script)
        self.store, self.word, self.inputs = store, word, 0

    def leaves(self, data, otherwise):
        return sessions.echo(self.word + data, otherwise)

    def start(self, task):
        began = super().start(task)
        if began:
            number, phase, place = task
            job = next(job for job in self.store.jobs.values() if job.number == number)
            self.inputs += len(sessions.tasks.run_of(self.store, job, phase, place)[2]) > 0
        return began


class Record:
    """What the disk does in a life."""

    def __init__(self, place):
        self.store, self.told = place.store, None
        self.calls = [Call(None, copy.deepcopy(self.store), None, False)] * place.opening

    def note(self, before, reads, pieces):
        """Reads of inputs, and then a command behind so many pieces, where one was added."""
        for _ in range(reads):
            self.calls.append(Call(self.told, before, None, True))
        if self.store.count == before.count:
            return
        behind = copy.deepcopy(self.store)
        # Of each record the head and the payload; then those are synced, the gate is closed behind them and opened, and that is synced.
        self.calls += [Call(self.told, before, None, False)] * (4 + 2 * pieces) + [Call(self.told, before, behind, False)] * 2


def archive(store):
    """How many texts of a closed job have a piece."""
    job, = store.jobs.values()
    return sum(len(job.text("l", text)) > 0 for text in JOB_TEXTS)


def turn(record, crew):
    before, crew.inputs = copy.deepcopy(record.store), 0
    did = crew.turn(record.store)
    record.note(before, crew.inputs, archive(record.store) if did == "Closed" else 1)
    return did


def live(story, place, **script):
    """A life that no call of the disk stops. It changes the store."""
    record = Record(place)
    crew, told = Crew(place.store, story.word(place.life), **script), []
    for message in story.messages[place.past:]:
        before = copy.deepcopy(place.store)
        place.store.ask(message)
        record.note(before, 0, 1 if message.startswith(b"PUT") and not message.endswith(b"\r\n\r\n") else 0)
        record.told = place.store.count
        told.append(record.told)
        turn(record, crew)
    did = "Closed"
    while did in ("Closed", "Committed"):
        did = turn(record, crew)
    return Life(record.calls, told, sessions.STATUSES[did], crew.faults, place.store)


def position(told):
    return "none" if told is None else told


def outputs(store):
    found = []
    for job in store.jobs.values():
        found += [body.decode() for body in (item.body for item in job.feed(len(job.phases)))]
    return "".join(" " + body for body in found)


class Story:
    def __init__(self, *messages, words=()):
        self.messages, self.words = messages, words
        print("new")
        for one in messages:
            print("message")
            head, _, body = one.partition(b"\r\n\r\n")
            for line in head.split(b"\r\n") + [b""]:
                print("> " + sessions.shown(line) if line else ">")
            if body:
                print(">| " + sessions.escaped(body))
        number = next(k for k, one in enumerate(messages) if one.startswith(b"POST /l/jobs HTTP"))
        print("out " + sessions.job_path(number, "/live/out"))
        if words:
            print(" ".join(["says", *words]))

    def word(self, life):
        return (self.words[min(life, len(self.words) - 1)] if self.words else "").encode()

    def whole(self, place):
        return live(self, copy.deepcopy(place))

    def behind(self, place, life, number, pick):
        """Where the story stands behind a life that is stopped in a call, and a crash that leaves this."""
        call = life.calls[number]
        store = copy.deepcopy(call.behind if call.behind and pick in ("ones", "whole") else call.before)
        # The byte of head is written by the last but one call of making a log, and synced by the last: nothing of it stays, or one of one.
        new = place.opening == sessions.OPENING and (number < sessions.OPENING - 2 or number < sessions.OPENING and pick in ("nothing", "half"))
        opening = sessions.OPENING if new else sessions.REOPENING if store.count else sessions.REOPENING - 1
        past = place.past + sum(told <= store.count for told in life.told)
        return Place(store, place.life + 1, past, opening)

    def last(self, place):
        life = self.whole(place)
        return f"status {life.status} at {life.store.count}:{outputs(life.store)}"

    def stop(self, place, life, number, pick):
        after = self.behind(place, life, number, pick)
        return after, f"status 5, told {position(life.calls[number].told)}, found {after.store.count}"

    def stops(self, pick):
        place = first()
        life, texts = self.whole(place), []
        for number in range(len(life.calls)):
            after, text = self.stop(place, life, number, pick)
            texts.append(f"{text}, then {self.last(after)}")
        print(f"stops {pick}")
        begin = 0
        for number, text in enumerate(texts):
            if texts[number + 1:number + 2] != [text]:
                print(f"    call {begin} to {number}: {text}")
                begin = number + 1

    def chain(self, seed):
        place, state = first(), seed
        print(f"chain {seed}")
        for _ in range(4):
            life = self.whole(place)
            drawn = []
            for most in (len(life.calls), len(PICKS)):
                state = (state * 6364136223846793005 + 1442695040888963407) % 2 ** 64
                drawn.append((state >> 33) % most)
            number, pick = drawn[0], PICKS[drawn[1]]
            place, text = self.stop(place, life, number, pick)
            print(f"    call {number}, {pick}: {text}")
        print(f"    last: {self.last(place)}")

    def faulty(self, row, status, told, store, past, faults):
        """A life in which calls fail, that ends without a crash, and the next one."""
        after = Place(store, 1, past, sessions.REOPENING)
        sessions.answered(row, f"status {status}, told {told}, found {store.count}, faults {faults}, then {self.last(after)}")

    def fail(self, kind, *numbers):
        name = {"starts": "starts_fail", "waits": "waits_fail", "parts": "reads_fail"}[kind]
        life = live(self, first(), **{name: numbers})
        self.faulty(" ".join(["fail", kind, *map(str, numbers)]), life.status, life.told[-1], life.store, len(self.messages), life.faults)

    def fail_inputs(self):
        life = self.whole(first())
        for number, call in enumerate(life.calls):
            if call.reads:
                past = sum(told <= call.told for told in life.told)
                self.faulty(f"fail inputs {number}", 5, call.told, copy.deepcopy(call.before), past, 0)


def note(text):
    print(f"\n# {text}")


def main():
    put, make, lines, end = sessions.put, sessions.make, sessions.lines, sessions.end
    note("Two objects, and a job that maps them. Each call of the disk fails in turn, and a crash leaves this much of each call since the last sync: what the position found has not is sent again, and the outputs are those of the job without a stop.")
    story = Story(put("a"), put("b", b"world"), make(), lines(2, "a", "b"), end(2))
    for pick in PICKS:
        story.stops(pick)
    note("Starts that fail: in the turn behind a message they are counted, and in the last one of the drain they are status 6.")
    for numbers in ((), (0,), (0, 1), (1,), (0, 1, 2)):
        story.fail("starts", *numbers)
    note("Waits that fail: the child that was started first is lost, and its task is run again, behind the other one.")
    for numbers in ((0,), (1,), (0, 1), (0, 1, 2)):
        story.fail("waits", *numbers)
    note("Reads that fail of what a command wrote: its task is run again.")
    for numbers in ((0,), (1,), (0, 1), (0, 1, 2)):
        story.fail("parts", *numbers)
    note("Reads that fail of what a task reads: the disk has failed, and the session ends with 5.")
    story.fail_inputs()
    note("Children of the first life write one, and those of the next two: the output is of the life whose commit stands.")
    story = Story(put("a", b""), make(), lines(1, "a"), end(1), words=("one", "two"))
    for pick in PICKS:
        story.stops(pick)
    note("Five lives, whose children write their numbers; four are stopped where chance has it, which begins with the row's number.")
    story = Story(put("a"), put("b", b"world"), make(), lines(2, "a", "b"), end(2), words="12345")
    for seed in range(1, 21):
        story.chain(seed)


main()
