"""What the scripts of this folder read in the sources: functions with their contracts, enums with their variants, and what a crate makes public."""
import collections
import glob
import os
import re

# The enums that are held to the table of causes are all that crates of the product make public, except these, which are values.
VALUES = set("""Area Ask Asked Command Doing Entry Failure Fate FileCall FileNo Found Framing InputLine JobDoing JobStand KeyRule Kind Line LiveText Made
    Methods Mode More OptionName Outcome Part PhaseKind Pick Place Range RecordHead ReplyBody Route RowKind Sizes SnapshotRecord Stage TagList TaskFailure
    TaskFault TaskRecord Tool TrailerLine Wanted Wish""".split())
Function = collections.namedtuple("Function", "name owner is_public contract takes gives path line")


def read(path):
    with open(path, encoding="utf-8") as file:
        return file.read()


def table(path, columns):
    """The rows of a table of tab-separated cells; a line that begins with # is a comment."""
    rows = [line.split("\t") for line in read(path).splitlines() if line and not line.startswith("#")]
    for row in rows:
        if len(row) != columns:
            raise SystemExit(f"{path} has a row of {len(row)} cells, not {columns}: {row[:2]}")
    return rows


def contract_at(lines, place):
    """The lines of a function from its head on, up to its body."""
    indent = re.match(r" *", lines[place]).group()
    found = []
    for line in lines[place:]:
        if line == indent + "{":
            break
        found.append(line)
        has_clause = any(re.match(r" *(?:requires|ensures)\b", each) for each in found)
        if line.endswith(";") or line.endswith("{") and not has_clause:
            break
    return "\n".join(found)


def functions_of(path):
    """The functions of a file: each with the type or trait that it is of, whether callers may name it, its contract, what it takes and gives, and its line."""
    lines, owner, kind, header = read(path).splitlines(), "", "", ""
    for place, line in enumerate(lines):
        if line.startswith("}"):
            owner, kind = "", ""
        if re.match(r"(?:pub )?trait ", line):
            owner, kind = re.search(r"trait (\w+)", line).group(1), "trait"
        if re.match(r"impl\b", line) or header:
            header += line + " "
            if line.endswith("{"):
                of = header.split(" for ")[-1]
                owner, kind = re.sub(r"^impl(?:<.*?> | )", "", of).split("<")[0].strip(" {"), "trait impl" if " for " in header else "impl"
                header = ""
        found = re.match(r" *(pub )?(?:pub\(\w+\) )?fn (\w+)", line)
        if found:
            contract = contract_at(lines, place)
            head = re.split(r"\n *(?:requires|ensures|where)\b", contract)[0].rstrip("{; ")
            takes, _, gives = head.partition("->")
            is_public = kind == "trait" or bool(found.group(1)) and kind != "trait impl"
            yield Function(found.group(2), owner, is_public, contract, takes, gives, path, place + 1)


def clauses_of(function):
    """The clauses of a contract: of each whether it is asked or promised, its label, its line, and its text."""
    found = []
    for place, line in enumerate(function.contract.split("\n")):
        begins = re.match(r" *(requires|ensures) (?:(\w+) )?\{", line)
        if begins:
            found.append([begins.group(1), begins.group(2) or begins.group(1), function.line + place, line])
        elif found and not line.lstrip().startswith("//"):
            found[-1][3] += "\n" + line
    return found


def exported(crate):
    """The names that a crate makes public."""
    uses = re.findall(r"^pub use ([^;]*);", read(f"crates/{crate}/src/lib.rt"), re.M)
    return {name for use in uses for name in (re.findall(r"\w+", use.split("{")[1]) if "{" in use else [use.split("::")[-1]])}


def docs_of(text):
    """Of the enums of a file the comment of each variant, and of its errors that are one value their own."""
    docs, doc, enum = {}, [], None
    for line in text.splitlines():
        comment = re.match(r" *///\s?(.*)", line)
        if comment:
            doc.append(comment.group(1))
            continue
        begins, single, variant = re.match(r"pub enum (\w+)", line), re.match(r"pub struct (\w+);", line), re.match(r"    ([A-Z]\w*)", line)
        if single:
            docs[single.group(1), "itself"] = " ".join(doc)
        if enum and variant:
            docs[enum, variant.group(1)] = " ".join(doc)
        enum = begins.group(1) if begins else None if line.startswith("}") else enum
        doc = doc if re.match(r" *#\[", line) else []
    return docs


class Sources:
    def __init__(self):
        crates = [name for name in re.findall(r"^(mt_\w+).*:", read("crates.txt"), re.M) if name not in ("mt_rows", "mt_untold") and os.path.isfile(f"crates/{name}/src/lib.rt")]
        self.crates = crates
        self.functions = {path.removeprefix("crates/"): list(functions_of(path)) for crate in crates for path in sorted(glob.glob(f"crates/{crate}/src/*.rt"))}
        # The answers: of each enum by its crate the variants, and of an error that is one value none.
        self.answers, self.enums, self.docs = {}, set(), {}
        for path in self.functions:
            text, crate = read(f"crates/{path}"), path.split("/")[0]
            self.docs.update({(name, crate, variant): doc for (name, variant), doc in docs_of(text).items()})
            for name, body in re.findall(r"^pub enum (\w+)(?:<\w+>)? \{\n(.*?)^\}", text, re.M | re.S):
                self.enums.add(name)
                if name not in VALUES:
                    self.answers[name, crate] = set(re.findall(r"^    ([A-Z]\w*)", body, re.M))
            for name in re.findall(r"^pub struct (\w+Fault|Short);", text, re.M):
                self.answers[name, crate] = set()
        self.calls = [(crate, function) for crate in crates for names in [exported(crate)] for path, functions in self.functions.items()
                      if path.startswith(crate + "/") and not path.endswith("laws.rt") for function in functions if function.is_public and (function.owner or function.name) in names]

    def laws(self, crate):
        """The laws of a crate: the calls of a file `..laws.rt`, which do nothing."""
        return [function for path, functions in self.functions.items() if path.startswith(crate + "/") and path.endswith("laws.rt") for function in functions if function.is_public]

    def answer(self, name, crate):
        """The answer of this name as it is meant in a crate: its own, or that of the one other crate that has it."""
        found = sorted((enum, of) for enum, of in self.answers if enum == name)
        return next((one for one in found if one[1] == crate), next(iter(one for one in found if one != ("Refusal", "mt_helper")), None))

    def given_by(self, crate, function):
        """The answers that a call may give."""
        words = re.findall(r"\w+", function.gives)
        return [found for found in (self.answer(word, crate) for word in words) if found]


def calls_in(cell):
    """The calls of a cell, each by its crate and its name."""
    return [(crate, name.split("::")[-1]) for names, crate in re.findall(r"((?:`[\w:]+`,? ?)+)of (mt_\w+)", cell) for name in re.findall(r"`([\w:]+)`", names)]
