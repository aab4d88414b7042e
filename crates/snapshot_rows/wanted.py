#!/usr/bin/env python3
"""Prints the table of snapshot_rows with the wanted answers: records laid out by Python's struct from the tables of docs/proof/FORMATS.md, and
digests by its hashlib."""
import hashlib
import struct

AREAS = ("stor", "public", "jobs")
LAST_MOMENT = 253_402_300_799
FAILURES = (None, "UserTaskError", "TaskOutputTooLarge", "TaskRecordError", "TaskPlaceRefused", "TaskObjectMissing")
STAGES = ("Open", "Committed", "Aborted")


class Piece:
    """Bytes of a field, perhaps the same ones many times, as the words of a row."""

    def __init__(self, data, times=1):
        self.data, self.times = data, times

    def bytes(self):
        return self.data * self.times

    def word(self):
        return self.data.hex() if self.times == 1 else f"{self.times}*{self.data.hex()}"


class Moved(Piece):
    """The place of a body."""


def u8(n):
    return Piece(struct.pack(">B", n))


def u16(n):
    return Piece(struct.pack(">H", n))


def u32(n):
    return Piece(struct.pack(">I", n))


def u64(n):
    return Piece(struct.pack(">Q", n))


def data(raw, times=1):
    return [Piece(raw, times)] if raw and times else []


def text(raw, times=1):
    return [u16(len(raw) * times), *data(raw, times)]


def long_text(raw, times=1):
    return [u32(len(raw) * times), *data(raw, times)]


def path(area, *names):
    out = [u8(AREAS.index(area)), u16(len(names))]
    for name in names:
        out += text(name)
    return out


def body(first, size):
    return [Moved(struct.pack(">Q", first)), u64(size)]


def option(field):
    return [u8(0)] if field is None else [u8(1), *field]


def metadata(*pairs):
    out = [u8(len(pairs))]
    for name, value in pairs:
        out += text(name) + text(value)
    return out


def raw_of(pieces, by=0):
    """The bytes, with each body so much further behind."""
    return b"".join(struct.pack(">Q", (struct.unpack(">Q", p.data)[0] + by) % 2**64) if isinstance(p, Moved) else p.bytes() for p in pieces)


def words(pieces):
    return " ".join(p.word() for p in pieces)


def escaped(raw):
    return "".join({9: "\\t", 10: "\\n", 13: "\\r", 92: "\\x5c"}.get(b) or (chr(b) if 32 <= b <= 126 else f"\\x{b:02x}") for b in raw)


def quoted(raw):
    return f'"{escaped(raw)}"'


def shown(area, *names):
    return "/" + "/".join([area, *(escaped(name) for name in names)])


def maybe(n):
    return "None" if n is None else f"Some({n})"


def row(call, answer):
    print(f"{call:<48} => {answer}")


def read(pieces, said, by=4_096):
    """A record that is read, and written again at the same places and at others."""
    print(f"read {words(pieces)}")
    print(f"    {said}")
    for far in (0, by):
        print(f"written {far}")
        raw = raw_of(pieces, far)
        print(f"    {len(raw)} bytes: {raw.hex()}")
    row("fronts 00", f"records at {len(raw_of(pieces))}")
    print()


def large(pieces, kind):
    """A record at a limit, of which the digests are wanted."""
    row(f"kind {words(pieces)}", kind)
    for far in (0, 4_096):
        raw = raw_of(pieces, far)
        row(f"digest {far}", f"{len(raw)} bytes, md5 {hashlib.md5(raw).hexdigest()}")


def is_one(pieces, kind):
    row(f"kind {words(pieces)}", kind)


def is_none(pieces):
    row(f"kind {words(pieces)}", "NotARecord")


def directory(where, moment):
    return [u8(65), *path(*where), u8(0), u64(moment)]


def an_object(where, number=1, moment=0, kind=(b"text/plain",), durability=None, pairs=(), at=8, size=5):
    lasting = None if durability is None else [u8(durability)]
    return [u8(65), *path(*where), u8(1), u64(number), u64(moment), *text(*kind), *option(lasting), *metadata(*pairs), *body(at, size)]


def phase(assets=(), reducers=None, line=b"cat", init=None):
    kind = [u8(0)] if reducers is None else [u8(1), u32(reducers)]
    out = [*kind, *long_text(line), *option(None if init is None else long_text(init)), u8(len(assets))]
    for asset in assets:
        out += path(*asset)
    return out


def job(phases, bodies, number=4_096, name=b"", created=0, ended=0, cancelled=0, done=None, counts=(0, 0, 0)):
    out = [u8(66), u64(number), *long_text(name), u8(len(phases))]
    for one in phases:
        out += one
    out += [u64(created), u8(ended), u8(cancelled), *option(None if done is None else [u64(done)])]
    for at, size in bodies:
        out += body(at, size)
    return out + [u32(counts[0]), u32(counts[1]), u64(counts[2])]


def item(where=("stor", b"a"), root=(b"a",), reducer=None, at=8, size=5):
    return [*path(*where), *text(*root), *option(None if reducer is None else [u32(reducer)]), *body(at, size)]


def entry(outcome, numbers=(0, 0, 1)):
    return [u8(69), u32(numbers[0]), u64(numbers[1]), u64(numbers[2]), *outcome]


def good(*items):
    return [u8(0), u16(len(items)), *[p for one in items for p in one]]


def bad(failure, status, stderr, times=1):
    return [u8(1), u8(failure), u32(status), *text(stderr, times)]


def upload(stage, parts, number=4_096, where=("stor", b"a"), kind=(b"text/plain",), moment=0):
    return [u8(72), u64(number), *path(*where), *text(*kind), u64(moment), u8(stage), u16(parts)]


def part(index, number=8_192, at=8, size=5):
    return [u8(73), u16(index), u64(number), *body(at, size)]


def begins():
    print("# The begin: how many commands there were, rows but the roots, jobs and uploads.")
    read([u8(64), u64(1), u64(2), u64(3), u64(4)], "begin at 1, rows 2, jobs 3, uploads 4")
    most = 2**50 - 1
    read([u8(64), u64(most), *[u64(2**64 - 1)] * 3], f"begin at {most}, rows {2**64 - 1}, jobs {2**64 - 1}, uploads {2**64 - 1}")
    is_none([u8(64), u64(most + 1), u64(0), u64(0), u64(0)])
    print()


def rows():
    print("# Rows. A path has at most 1,024 bytes, a component 255.")
    read(directory(("stor", b"d"), 7), "row /stor/d, directory, moment 7")
    read(directory(("jobs",), LAST_MOMENT), f"row /jobs, directory, moment {LAST_MOMENT}")
    is_none(directory(("stor", b"d"), LAST_MOMENT + 1))
    is_one(directory(("stor", b"a" * 255, b"b" * 255, b"c" * 255, b"d" * 250), 0), "row")
    is_none(directory(("stor", b"a" * 255, b"b" * 255, b"c" * 255, b"d" * 251), 0))
    is_none(directory(("stor", b"a" * 256), 0))
    is_none(directory(("stor", b".."), 0))
    is_none([u8(65), u8(3), u16(0), u8(0), u64(0)])
    is_none([u8(65), *path("stor", b"d"), u8(2), u64(0)])
    print()
    read(an_object(("stor", b"a")), 'row /stor/a, object 1, moment 0, type "text/plain", durability None, body 8+5')
    pairs = ((b"m-a", b"x y"), (b"m-a", b""))
    full = an_object(("public", b"a", "\u00e4".encode()), 2**64 - 1, LAST_MOMENT, (b"",), 6, pairs, 2**64 - 1, 2**64 - 1)
    read(full, f'row /public/a/\\xc3\\xa4, object {2**64 - 1}, moment {LAST_MOMENT}, type "", durability Some(6), "m-a" "x y", "m-a" "", body {2**64 - 1}+{2**64 - 1}')
    read(an_object(("stor", b"e"), at=0, size=0), 'row /stor/e, object 1, moment 0, type "text/plain", durability None, body 0+0')
    is_none(an_object(("stor", b"e"), at=1, size=0))
    is_none(an_object(("stor", b"a"), moment=LAST_MOMENT + 1))
    is_one(an_object(("stor", b"a"), kind=(b"t", 255)), "row")
    is_none(an_object(("stor", b"a"), kind=(b"t", 256)))
    is_none(an_object(("stor", b"a"), kind=(b" t",)))
    is_none(an_object(("stor", b"a"), kind=(b"t\x7f",)))
    is_one(an_object(("stor", b"a"), durability=1), "row")
    is_none(an_object(("stor", b"a"), durability=0))
    is_none(an_object(("stor", b"a"), durability=7))
    is_one(an_object(("stor", b"a"), pairs=((b"m-", b"v" * 4_094),)), "row")
    is_none(an_object(("stor", b"a"), pairs=((b"m-", b"v" * 4_095),)))
    is_one(an_object(("stor", b"a"), pairs=((b"m-", b""),) * 100), "row")
    is_none(an_object(("stor", b"a"), pairs=((b"m-", b""),) * 101))
    is_none(an_object(("stor", b"a"), pairs=((b"m-b", b""), (b"m-a", b""))))
    is_none(an_object(("stor", b"a"), pairs=((b"x-a", b""),)))
    print()


def jobs():
    print("# Jobs: behind the document its moments and flags, the bodies of all assets in order, and the lengths of the lists.")
    read(job([phase()], []), 'job 4096 "" of 1 phases, created 0, ended false, cancelled false, done None, assets [], inputs 0, missing 0, entries 0')
    two = [phase([("stor", b"a"), ("stor", b"b")]), phase([("public", b"c")], 1_024, b"wc", b"date")]
    read(
        job(two, [(8, 1), (0, 0), (64, 70_000)], 2**64 - 1, b"n", LAST_MOMENT, 1, 1, LAST_MOMENT, (2, 1, 3)),
        f'job {2**64 - 1} "n" of 2 phases, created {LAST_MOMENT}, ended true, cancelled true, done Some({LAST_MOMENT}), assets [, body 8+1, body 0+0], assets [, body 64+70000], inputs 2, missing 1, entries 3',
    )
    is_none(job(two, [(8, 1), (0, 0)]))
    is_none(job(two, [(8, 1), (0, 0), (64, 70_000), (64, 70_000)]))
    is_none(job(two, [(8, 1), (1, 0), (64, 70_000)]))
    is_one(job([phase()], [], counts=(2**32 - 1, 2**32 - 1, 2**64 - 1)), "job")
    is_none(job([phase()], [], ended=2))
    is_none(job([phase()], [], cancelled=2))
    is_none(job([phase()], [], created=LAST_MOMENT + 1))
    is_none(job([phase()], [], done=LAST_MOMENT + 1))
    broken = job([phase()], [])
    is_none(broken[:-4] + [u8(2)] + broken[-3:])
    is_none(job([], []))
    is_none(job([phase()] * 17, []))
    is_none(job([phase(reducers=0)], []))
    is_none(job([phase(reducers=1_025)], []))
    is_none(job([phase(line=b"")], []))
    is_one(job([phase()] * 16, []), "job")
    asset = b"".join(p.bytes() for p in path("stor", b"a"))
    one = raw_of(body(8, 5))
    for many, kind in ((65, "NotARecord"), (64, "job")):
        whole = job([[*phase()[:-1], u8(many), Piece(asset, many)]], [])
        # the bodies stand before the lengths of the three lists
        row(f"kind {words([*whole[:-3], Piece(one, many), *whole[-3:]])}", kind)
    for far in (0, 4_096):
        raw = raw_of(whole[:-3]) + raw_of(body(8, 5), far) * 64 + raw_of(whole[-3:])
        row(f"digest {far}", f"{len(raw)} bytes, md5 {hashlib.md5(raw).hexdigest()}")
    print()


def inputs():
    print("# Inputs: a name, what the names of outputs begin with (a component of at most 200 bytes), perhaps a reducer, a body.")
    read([u8(67), *item()], 'input /stor/a, root "a", reducer None, body 8+5')
    read([u8(67), *item(("jobs", b"j", b"x"), (b"reduce",), 2**32 - 1, 0, 0)], f'input /jobs/j/x, root "reduce", reducer Some({2**32 - 1}), body 0+0')
    large([u8(67), *item(root=(b"r", 200))], "input")
    is_none([u8(67), *item(root=(b"r", 201))])
    for root in (b"", b".", b"..", b"a/b", b"a\x00", b"\xff"):
        is_none([u8(67), *item(root=(root,))])
    is_none([u8(67), *path("stor", b"a"), *text(b"a"), u8(2), *body(8, 5)])
    is_none([u8(67), *item(at=1, size=0)])
    print()
    print("# Missing lines.")
    read([u8(68), u8(0), *path("stor", b"gone")], "missing named /stor/gone")
    read([u8(68), u8(1), *long_text(b"no path \\")], 'missing other "no path \\x5c"')
    large([u8(68), u8(1), *long_text(b"x", 70_000)], "missing")
    is_none([u8(68), u8(1), *long_text(b"")])
    is_none([u8(68), u8(1), *long_text(b"a\nb")])
    is_none([u8(68), u8(1), *long_text(b"\xff")])
    is_none([u8(68), u8(2), *path("stor", b"gone")])
    print()


def entries():
    print("# Committed tasks: their outputs, at most 4,095, or why they failed, with at most 1,024 bytes of standard error.")
    read(entry(good()), "entry of phase 0, place 0, position 1")
    most = (2**32 - 1, 2**64 - 1, 2**64 - 1)
    read(
        entry(good(item(), item(("public", b"b"), (b"b",), 3, 100, 1)), most),
        f'entry of phase {most[0]}, place {most[1]}, position {most[2]}; /stor/a, root "a", reducer None, body 8+5; /public/b, root "b", reducer Some(3), body 100+1',
    )
    for code in range(1, 6):
        read(entry(bad(code, 2**32 - 1, b"E\n")), f'entry of phase 0, place 0, position 1, {FAILURES[code]}, status {2**32 - 1}, stderr "E\\n"')
    is_none(entry(bad(0, 1, b"")))
    is_none(entry(bad(6, 1, b"")))
    is_none(entry([u8(2), u16(0)]))
    large(entry(bad(1, 1, b"\xff", 1_024)), "entry")
    is_none(entry(bad(1, 1, b"\xff", 1_025)))
    one = b"".join(p.bytes() for p in item())
    row(f"kind {words(entry([u8(0), u16(4_095), Piece(one, 4_095)]))}", "entry")
    for far in (0, 4_096):
        raw = raw_of(entry([u8(0), u16(4_095)])) + raw_of(item(), far) * 4_095
        row(f"digest {far}", f"{len(raw)} bytes, md5 {hashlib.md5(raw).hexdigest()}")
    is_none(entry([u8(0), u16(4_096), Piece(one, 4_096)]))
    is_none(entry([u8(0), u16(2), Piece(one)]))
    print()


def uploads():
    print("# Uploads, and their parts: at most 10,000, none once the upload is no longer open.")
    read(upload(0, 2), 'upload 4096 to /stor/a, type "text/plain", moment 0, Open, parts 2')
    read(upload(1, 0, 2**64 - 1, ("public", b"a", b"b"), (b"",), LAST_MOMENT), f'upload {2**64 - 1} to /public/a/b, type "", moment {LAST_MOMENT}, Committed, parts 0')
    read(upload(2, 0), 'upload 4096 to /stor/a, type "text/plain", moment 0, Aborted, parts 0')
    large(upload(0, 10_000), "upload")
    is_none(upload(0, 10_001))
    is_none(upload(1, 1))
    is_none(upload(2, 1))
    is_none(upload(3, 0))
    is_none(upload(0, 0, moment=LAST_MOMENT + 1))
    is_none(upload(0, 0, kind=(b"t", 256)))
    print()
    read(part(0), "part 0, number 8192, body 8+5")
    read(part(9_999, 2**64 - 1, 0, 0), f"part 9999, number {2**64 - 1}, body 0+0")
    is_none(part(10_000))
    is_none(part(0, at=1, size=0))
    print()


def others():
    print("# The end, and what is no record: no byte, other first bytes, a piece, a put.")
    read([u8(71)], "end")
    row("kind", "NotARecord")
    for mark in (0, 1, 63, 70, 74, 255):
        is_none([u8(mark)])
    is_none([u8(0), Piece(b"hello")])
    is_none([u8(1), u64(0), *path("stor", b"a"), *text(b"text/plain"), *body(8, 5)])


def main():
    print("# Records of a snapshot, in hexadecimal. The bytes are those of docs/proof/FORMATS.md, laid out by Python's struct. A body is the place of its")
    print('# first piece and its length. "written 4096" is the record that was read last with each body 4,096 bytes further behind, "digest" the')
    print('# number and the MD5 of these bytes, "fronts 00" the lengths at which its bytes, with a 0 behind them, are a record when they are cut')
    print("# there.")
    print()
    begins()
    rows()
    jobs()
    inputs()
    entries()
    uploads()
    others()


main()
