#!/usr/bin/env python3
"""Prints the table of ask_rows with the wanted answers: words are read by the grammar of docs, targets escaped by Python's urllib,
markers by its urlencode, and identifiers made by its uuid."""
import re
import urllib.parse
import uuid

URL, LOGIN = "h:1", "l"
PLAIN = "-._~/"
AREAS = ("stor", "public", "jobs")
ONE_PATH = {"mls": "list", "mfind": "find", "mget": "get", "mput": "put", "mmkdir": "make", "mrm": "remove"}
VERBS = {"add": "add", "end": "end", "cancel": "cancel", "get": "status", "out": "outputs"}
LIVE = {"add": ("POST", "in"), "end": ("POST", "in/end"), "cancel": ("POST", "cancel"), "status": ("GET", "status"), "outputs": ("GET", "out")}
METHODS = {"list": "GET", "find": "GET", "get": "GET", "put": "PUT", "make": "PUT", "remove": "DELETE", "link": "PUT", "create": "POST"}
TYPES = {"put": "application/octet-stream", "make": "application/json; type=directory", "link": "application/json; type=link"}


def escaped(data):
    out = []
    for b in data:
        out.append({9: "\\t", 10: "\\n", 13: "\\r", 92: "\\x5c"}.get(b) or (chr(b) if 32 <= b <= 126 else f"\\x{b:02x}"))
    text = "".join(out)
    return text[:-1] + "\\s" if text.endswith(" ") else text


def word(text):
    """A word of a row: a run of more than 40 times one letter is said as such."""
    return re.sub(r"((\w)\2{40,})", lambda it: f"\\*{len(it[1])}.{it[2]}", escaped(text.encode()).replace(" ", "\\s")) or "\\e"


def row(call, answer):
    print(f"{call:<48} => {answer}")


def identifier(kind, number):
    """The UUID of version 8 (RFC 9562, section 5.8) that holds a kind and a number."""
    return str(uuid.UUID(int=(kind << 96) | (0x8000 << 64) | (1 << 63) | number))


def number_of(kind, text):
    found = re.fullmatch("[0-9a-f-]{19}([0-9a-f]{4})-([0-9a-f]{12})", text)
    if not found:
        return None
    number = int(found[1] + found[2], 16) - (1 << 63)
    return number if 0 <= number < 2**62 and identifier(kind, number) == text else None


def is_component(name):
    data = name.encode()
    return 1 <= len(data) <= 255 and name not in (".", "..") and not any(b < 32 or b == 127 for b in data)


def path_of(login, text):
    """The names behind the login, or none where the text names no path."""
    if not text.startswith(("/", "~~/")):
        return None
    names = [name for name in text.split("/") if name]
    if not names or names[0] not in ("~~", login):
        return None
    names = names[1:]
    if sum(len(name.encode()) + 1 for name in names) > 1024 or not all(map(is_component, names[1:])):
        return None
    return names if names and names[0] in AREAS else None


def ask_of(login, command, rest):
    if command == "mln":
        paths = [path_of(login, text) for text in rest]
        return ("link", *paths) if len(paths) == 2 and None not in paths else None
    if command == "mjob":
        if rest == ["create"]:
            return ("create",)
        if len(rest) != 2 or rest[0] not in VERBS:
            return None
        number = number_of(2, rest[1])
        return None if number is None else (VERBS[rest[0]], number)
    if command not in ONE_PATH or len(rest) != 1:
        return None
    path = path_of(login, rest[0])
    return path and (ONE_PATH[command], path)


def words_of(words):
    if len(words) < 5 or words[0] != "--url" or words[2] != "--login":
        return None
    url, login = words[1], words[3]
    if not url or any(b <= 32 or b == 127 for b in url.encode()) or not re.fullmatch("[A-Za-z0-9_-]{1,64}", login):
        return None
    ask = ask_of(login, words[4], words[5:])
    return ask and (url, login, ask)


def text_of(login, names):
    return "/" + "/".join((login, *names))


def quoted(text):
    return urllib.parse.quote(text.encode(), safe=PLAIN)


def shown(read):
    if not read:
        return "usage"
    url, login, ask = read
    if ask[0] == "create":
        said = "create"
    elif ask[0] == "link":
        said = f"link {escaped(text_of(login, ask[1]).encode())} at {escaped(text_of(login, ask[2]).encode())}"
    elif ask[0] in LIVE:
        said = f"{ask[0]} {ask[1]}"
    else:
        said = f"{ask[0]} {escaped(text_of(login, ask[1]).encode())}"
    mark = " < source" if ask[0] in ("put", "create", "add") else " by pages" if ask[0] in ("list", "find") else ""
    return f"{escaped(url.encode())} {login} {said}{mark}"


def head_of(read, length, page):
    url, login, ask = read
    name = ask[0]
    if name in LIVE:
        method, live = LIVE[name]
        target = quoted(text_of(login, ("jobs", identifier(2, ask[1]), "live", live)))
    else:
        method = METHODS[name]
        target = quoted(text_of(login, ("jobs",) if name == "create" else ask[-1]))
    if name in ("list", "find"):
        directory, marker = page or (ask[1], None)
        query = {"limit": "256"} if marker is None else {"limit": "256", "marker": marker}
        target = quoted(text_of(login, directory)) + "?" + urllib.parse.urlencode(query, quote_via=urllib.parse.quote, safe=PLAIN)
    fields = {"host": url}
    if method in ("PUT", "POST"):
        fields["content-length"] = str(length if name in ("put", "create", "add") else 0)
    if name in TYPES:
        fields["content-type"] = TYPES[name]
    if name == "link":
        fields["location"] = quoted(text_of(login, ask[1]))
    return [f"{method} {target} HTTP/1.1", *(f"{key}: {fields[key]}" for key in sorted(fields)), ""]


def words(*said):
    row("words " + " ".join(map(word, said)), shown(words_of(list(said))))


def fine(*said):
    words("--url", URL, "--login", LOGIN, *said)


def url(*said):
    answer = f"[{escaped(said[1].encode())}]" if len(said) >= 2 and said[0] == "--url" else "none"
    row(" ".join(("url", *map(word, said))), answer)


def lines(call, read, length=0, page=None):
    if not read:
        row(call, "usage")
        return
    said = head_of(read, length, page)
    row(call, f"{sum(len(line.encode()) + 2 for line in said)} bytes")
    for line in said:
        print(f"    <{' ' if line else ''}{escaped(line.encode())}")


def head(length, *said, login=LOGIN, host=URL):
    said = ("--url", host, "--login", login, *said)
    lines(f"head {length} " + " ".join(map(word, said)), words_of(list(said)), length)


def page(directory, marker, *said):
    said = ("--url", URL, "--login", LOGIN, *said)
    call = f"first {word(directory)}" if marker is None else f"page {word(directory)} {word(marker)}"
    lines(call + " " + " ".join(map(word, said)), words_of(list(said)), 0, (path_of(LOGIN, directory), marker))


def commands():
    print("# Each command.")
    for name in ONE_PATH:
        fine(name, "/l/stor/a")
        fine(name, "~~/public")
    fine("mln", "/l/stor/a", "~~/public/b")
    fine("mjob", "create")
    for verb in VERBS:
        fine("mjob", verb, identifier(2, 0))
        fine("mjob", verb, identifier(2, 2**62 - 1))
    print("\n# Too few arguments, and too many.")
    for name in ONE_PATH:
        fine(name)
        fine(name, "/l/stor/a", "/l/stor/b")
    for many in range(4):
        if many != 2:
            fine("mln", *["/l/stor/a"] * many)
    fine("mjob")
    fine("mjob", "create", "create")
    fine("mjob", "create", identifier(2, 1))
    fine("mjob", "create", identifier(2, 1), "x")
    for verb in VERBS:
        fine("mjob", verb)
        fine("mjob", verb, identifier(2, 1), identifier(2, 1))
    print("\n# No command, and no verb.")
    for name in ("", "m", "ml", "mlss", "MLS", "mls ", "ls", "put", "--help", "-h", "mput/l/stor/a"):
        fine(name, "/l/stor/a")
    for verb in ("", "ad", "adds", "ADD", "creat", "list", "ls", "status", "outputs", "err", "in"):
        fine("mjob", verb, identifier(2, 1))
        fine("mjob", verb)


def orders():
    print("\n# The options: two, in this order, each with its value.")
    base = ["--url", URL, "--login", LOGIN, "mls", "/l/stor"]
    row("words", "usage")
    for n in range(1, 6):
        words(*base[:n])
    words("mls", "/l/stor")
    words("--login", LOGIN, "--url", URL, "mls", "/l/stor")
    words("--login", LOGIN, "mls", "/l/stor", "--url", URL)
    words("mls", "/l/stor", "--url", URL, "--login", LOGIN)
    words("mls", "/l/stor", "--login", LOGIN, "--url", URL)
    words("--url", URL, "mls", "/l/stor", "--login", LOGIN)
    words("--url", URL, "--login", LOGIN, "/l/stor", "mls")
    words("--url", URL, "--login", LOGIN, "mjob", identifier(2, 1), "get")
    words("--url", "--login", LOGIN, "mls", "/l/stor")
    words("--url", URL, "--login", "mls", "/l/stor")
    words("--url", URL, "--url", URL, "--login", LOGIN, "mls", "/l/stor")
    words("--url=" + URL, "--login", LOGIN, "mls", "/l/stor")
    words("--URL", URL, "--login", LOGIN, "mls", "/l/stor")
    words("-url", URL, "--login", LOGIN, "mls", "/l/stor")
    words("--url", URL, "--user", LOGIN, "mls", "/l/stor")
    words("--url", URL, "--login", LOGIN, "mls", "/l/stor", "--tries")
    words("--url", URL, "--login", LOGIN, "--", "mls", "/l/stor")
    print("\n# A host and its port.")
    for host in ("x", "127.0.0.1:8080", "[::1]:8080", "h", "http://h/", "h%20", "\u00e9:1", "a" * 300, "", " ", "h 1", " h:1", "h:1 ", "h\t1", "h:1\n", "h\r\nx: y", "h\x00", "h\x7f", "!~"):
        words("--url", host, "--login", LOGIN, "mls", "/l/stor")
    print("\n# A login.")
    for login in ("a", "A-z_0", "l" * 64, "l" * 65, "", "l.", "l/", "~~", "\u00e9", "l l"):
        words("--url", URL, "--login", login, "mls", "~~/stor")


def names():
    print("\n# A path of the account.")
    for text in (
        "", "/", "l/stor", "stor", "~~", "~~/", "~~stor", "/l", "/l/", "/m/stor/a", "/L/stor", "/l/x", "/l/Stor", "/~~/stor/a", "//l//stor//a//", "~~//stor", "/l/stor/.", "/l/stor/..", "/l/stor/...",
        "/l/stor/a b", "/l/stor/a?b", "/l/stor/%61", "/l/stor/\u00e9\u20ac\U0001f600", "/l/stor/a\x1f", "/l/stor/a\x7f", "/l/stor/a\n", "/l/stor/" + "a" * 255, "/l/stor/" + "a" * 256, "/l/jobs", "/l/jobs/x/live",
        "/l/uploads", "/l/stor" + ("/" + "b" * 254) * 4, "/l/public" + ("/" + "b" * 254) * 4,
    ):
        fine("mls", text)
    fine("mln", "/l/stor/a", "/m/stor/b")
    fine("mln", "/m/stor/a", "/l/stor/b")
    fine("mln", "a", "b")
    print("\n# The identifier of a job.")
    for text in (identifier(1, 1), identifier(3, 1), identifier(4, 1), identifier(2, 1).upper(), identifier(2, 0xABCDEF), identifier(2, 0xABCDEF).upper(), identifier(2, 1)[:-1], identifier(2, 1) + "0", identifier(2, 1).replace("-", ""),
                 "{" + identifier(2, 1) + "}", "1", "", identifier(2, 2**62), "/l/jobs/" + identifier(2, 1)):
        fine("mjob", "get", text)


def urls():
    print("\n# Where a link is made, whatever the words are.")
    row("url", "none")
    url("--url")
    url("--url", URL)
    url("--url", "")
    url("--url", "h 1")
    url("--url", "--url")
    url("--url", URL, "x", "y")
    url("mls", "--url", URL)
    url("--login", LOGIN, "--url", URL)
    url("--URL", URL)


def heads():
    print("\n# The head of each command.")
    head(5, "mput", "~~/stor/a")
    for name in ONE_PATH:
        head(7, name, "/l/stor/a/b")
    head(7, "mln", "/l/stor/a b", "/l/public/b")
    head(7, "mjob", "create")
    for verb in VERBS:
        head(7, "mjob", verb, identifier(2, 0x3000))
    head(0, "mput", "/l/public/a", host="127.0.0.1:8080")
    head(16777216, "mput", "/l/public/a", login="a_B-9", host="[::1]:8080")
    head(16777216, "mput", "~~/public/a", login="a_B-9", host="[::1]:8080")
    head(2**64 - 1, "mput", "~~/stor/a")
    head(0, "mget", "~~/stor")
    head(0, "mls", "~~/jobs")
    head(0, "mls", "~~/x")
    print("\n# Targets: each byte but letters, digits, -._~ and the slash is escaped.")
    for start in range(32, 128, 32):
        text = "".join(chr(b) for b in range(start, start + 32) if b not in (47, 127))
        head(0, "mget", "/l/stor/" + text)
    head(0, "mget", "/l/stor/\u00e9/\u20ac/\U0001f600")
    head(0, "mget", "/l/stor/\u0080\u00bf\u07ff\u0800\uffff\U0010ffff")
    head(0, "mget", "/l/stor/..a/a..")
    head(0, "mln", "/l/stor/a?b#c&d=e+f%20", "/l/stor/\u00e9")
    head(0, "mget", "/l/stor" + ("/" + "b" * 254) * 4)
    print("\n# Pages.")
    for name in ("mls", "mfind"):
        page("/l/stor/a", None, name, "/l/stor")
        page("/l/stor/a b", "x", name, "/l/stor")
    for marker in ("", "a&b", "a=b", "a+b", "a b", "a%b", "?", "#", ";", "~", "-._", "\u00e9\u20ac", "a" * 255, "limit=1"):
        page("/l/stor", marker, "mls", "/l/stor")
    page("/l/jobs", identifier(2, 1), "mls", "/l/jobs")
    print("\n# A page is looked at by listings alone.")
    page("/l/stor/other", "x", "mget", "/l/stor/a")
    page("/l/stor/other", "x", "mrm", "/l/stor/a")


if __name__ == "__main__":
    commands()
    orders()
    names()
    urls()
    heads()
