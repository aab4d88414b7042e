#!/usr/bin/env python3
"""Writes a store byte for byte as the program does: of puts of objects of 5 bytes, or of one job of one map phase with so many inputs, whose tasks
are committed, without an output or with one of 5 bytes each, or aren't. usage: commits.py FOLDER puts|inputs|plain|outputs COUNT"""
import hashlib
import os
import struct
import sys

MOMENT = struct.pack(">Q", 1_750_000_000)
PIECE = b"\0hello"
LINES = 100_000


def short(text):
    return struct.pack(">H", len(text)) + text


class Log:
    def __init__(self, file):
        self.file, self.at = file, 8
        file.write(b"MTLOG002")

    def record(self, payload):
        """The place of a record, which is added."""
        place = self.at
        self.file.write(b"\1" + struct.pack(">I", len(payload)) + hashlib.md5(payload).digest() + payload)
        self.at += 21 + len(payload)
        return place

    def put(self, name):
        first = self.record(PIECE)
        self.record(b"\1" + MOMENT + struct.pack(">BH", 0, 1) + short(name) + short(b"text/plain") + struct.pack(">QQ", first, len(PIECE) - 1))

    def commit(self, job, place, has_output):
        records = b""
        if has_output:
            records = b"\1\0\0" + struct.pack(">QQ", self.record(PIECE), len(PIECE) - 1)
        self.record(b"\x08" + MOMENT + struct.pack(">QIQ", job, 0, place) + b"\0" + struct.pack(">H", int(has_output)) + records)


def write(log, kind, count):
    if kind == "puts":
        for k in range(count):
            log.put(b"object%07d" % k)
        return
    log.put(b"input")
    job = 4096
    log.record(b"\5" + MOMENT + struct.pack(">I", 0) + b"\1" + b"\0" + struct.pack(">I", 3) + b"cat" + b"\0\0")
    line = b"\0" + struct.pack(">BH", 0, 1) + short(b"input")
    for k in range(0, count, LINES):
        lines = min(LINES, count - k)
        log.record(b"\6" + MOMENT + struct.pack(">QI", job, lines) + line * lines)
    if kind == "inputs":
        return
    for place in range(count):
        log.commit(job, place, kind == "outputs")


def main():
    folder, kind, count = sys.argv[1], sys.argv[2], int(sys.argv[3])
    os.makedirs(folder)
    with open(f"{folder}/log1", "wb", buffering=1 << 20) as file:
        write(Log(file), kind, count)
        file.write(b"\0")
    for name, content in (("head", b"\1"), ("log2", b"")):
        with open(f"{folder}/{name}", "wb") as file:
            file.write(content)


main()
