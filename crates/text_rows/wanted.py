#!/usr/bin/env python3
"""Prints the table of text_rows: the answers of the rows of mt_path are worked out here, by lists of names; those of the other rows
stand in the table, under comments that say where they come from."""
from urllib.parse import unquote_to_bytes

AREAS = {b"stor": ("Stor", 0), b"public": ("Public", 1), b"jobs": ("Jobs", 2)}
LONGEST_PATH, LONGEST_COMPONENT, LONGEST_LOGIN = 1024, 255, 64


class Refused(Exception):
    pass


def unescaped(word):
    """The bytes of a word of a row."""
    first, *pieces = word.encode().split(b"\\")
    out = first
    for piece in pieces:
        kind, rest = piece[:1], piece[1:]
        if kind == b"x":
            out += bytes.fromhex(rest[:2].decode()) + rest[2:]
        elif kind == b"*":
            times, rest = rest.split(b".", 1)
            out += rest[:1] * int(times) + rest[1:]
        else:
            out += {b"s": b" ", b"t": b"\t", b"r": b"\r", b"n": b"\n", b"e": b""}[kind] + rest
    return out


def shown(text):
    """Bytes as a table shows them."""
    named = {9: "\\t", 10: "\\n", 13: "\\r", 92: "\\x5c"}
    out = "".join(named.get(b, chr(b) if 32 <= b < 127 else f"\\x{b:02x}") for b in text)
    return out[:-1] + "\\s" if out.endswith(" ") else out


def is_component(name):
    try:
        name.decode()
    except UnicodeDecodeError:
        return False
    return 1 <= len(name) <= LONGEST_COMPONENT and name not in (b".", b"..") and not any(b < 32 or b in (47, 127) for b in name)


def is_login(name):
    return 1 <= len(name) <= LONGEST_LOGIN and all(chr(b).isalnum() and b < 128 or b in b"_-" for b in name)


def length(names):
    """With a slash before each name."""
    return sum(1 + len(name) for name in names)


def names_of(login, pieces):
    """The names behind the login; the first refusal, of the whole name."""
    if not pieces:
        raise Refused("Empty")
    first, *names = pieces
    if length(names) > LONGEST_PATH:
        raise Refused("TooLong")
    if not all(map(is_component, names[1:])):
        raise Refused("BadComponent")
    if first != login:
        raise Refused("OtherLogin")
    return names


def pieces_of(text):
    return [piece for piece in text.split(b"/") if piece]


def target_names(login, raw):
    return names_of(login, [unquote_to_bytes(it) for it in pieces_of(raw.split(b"?")[0])] if raw.startswith(b"/") else [])


def text_names(login, text):
    pieces = pieces_of(text) if text.startswith((b"/", b"~~/")) else []
    return names_of(login, [login if at == 0 and it == b"~~" else it for at, it in enumerate(pieces)])


def path(names):
    """A path is the list of the names of its area and its components."""
    if not names or names[0] not in AREAS:
        raise Refused("NoArea")
    return names


def printed(names):
    return shown(b"/l" + b"".join(b"/" + name for name in names))


def child(names, name):
    if length(names + [name]) > LONGEST_PATH:
        raise Refused("TooLong")
    if not is_component(name):
        raise Refused("BadComponent")
    return names + [name]


def listed(names):
    return " ".join([str(len(names))] + [shown(name) for name in names])


def counted(text):
    return f"{len(text)} {shown(text)}" if text else "0"


def key(parts):
    """A byte 0 before each component."""
    return b"".join(b"\0" + part for part in parts)


def said(truth):
    return "true" if truth else "false"


def relation(one, two):
    a, b = [(AREAS[it[0]][1], it[1:]) for it in (one, two)]
    order = "Less" if a < b else "Greater" if a > b else "Equal"
    under = len(one) > len(two) and one[: len(two)] == two
    beside = len(one) > 1 and len(two) > 1 and one[:-1] == two[:-1]
    return f"{order}, equal {said(a == b)}, under {said(under)}, same parent {said(beside)}"


def at_path(call, names, words):
    """The answer to a row that begins with a path."""
    area, parts = names[0], names[1:]
    match call:
        case "path":
            return f"{AREAS[area][0]}, root {said(not parts)}, {listed(parts)}, {printed(names)}"
        case "part":
            return f"{shown(parts[int(words[1])])} of {len(parts)}"
        case "parent":
            return printed(names[:-1]) if parts else "None"
        case "child" | "extended":
            return printed(child(names, unescaped(words[1])))
        case "two-paths":
            return relation(names, path(text_names(b"l", unescaped(words[1]))))
        case "printed-again" | "from-key":
            return printed(names)
        case "front":
            return printed(names[: 1 + int(words[1])])
        case "key":
            return counted(key(parts))
        case "parent-key":
            return counted(key(parts[:-1]))
        case "first-part":
            return counted(parts[0] if parts else b"")
        case "behind-first":
            return counted(key(parts[1:]))


AT_PATHS = set("path part parent child extended two-paths printed-again from-key front key parent-key first-part behind-first".split())


def answer(call, words):
    """The answer to a row, or None where the row is of another crate."""
    match call:
        case "target":
            return printed(path(target_names(words[0].encode(), unescaped(words[1]))))
        case "text":
            return printed(path(text_names(words[0].encode(), unescaped(words[1]))))
        case "names":
            return listed(target_names(words[0].encode(), unescaped(words[1])))
        case "is-login":
            return said(is_login(unescaped(words[0])))
        case "is-component":
            return said(is_component(unescaped(words[0])))
        case "area":
            name = unescaped(words[0])
            return f"{AREAS[name][0]} {name.decode()} {AREAS[name][1]}" if name in AREAS else "None"
        case "root":
            return printed([unescaped(words[0])])
    if call in AT_PATHS:
        return at_path(call, path(text_names(b"l", unescaped(words[0]))), words)
    return None


def main():
    for line in open("stdout", encoding="utf-8"):
        line = line.rstrip("\n")
        row = line.split(" => ")[0].rstrip()
        call, *words = row.split() or [""]
        try:
            wanted = None if line.startswith(("#", " ")) else answer(call, words)
        except Refused as refusal:
            wanted = str(refusal)
        print(line if wanted is None else f"{row:<48} => {wanted}")


main()
