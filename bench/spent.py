"""How the seconds of a proof are told from the files that it wrote, for gate-functions and proof-times.

A proof writes what it has proved file after file. A file's time is that between its last write and the one before it, so what else the machine does counts too.
"""
import collections
import re

PARTS = "Lts|Proof|Tie|Reads|Code|Kinds|Layout|Named|Statement|Symbol|Answers|Goals|Calls"
PLACE = re.compile(rf"Rattle-\w+?-(?:proofs|specs)\.(.*?)\.({PARTS})\b")
OTHERS = "(all others)"


def spent(written):
    """The seconds of each function and of each kind of file, as two counters, of pairs of a moment and a name."""
    functions, kinds = collections.Counter(), collections.Counter()
    ordered = sorted(written)
    for (before, _), (now, name) in zip(ordered, ordered[1:]):
        found = PLACE.match(name)
        functions[found[1] if found else OTHERS] += now - before
        kinds[found[2] if found else OTHERS] += now - before
    return functions, kinds


def of_kinds(kinds, most):
    """The kinds that took most, as one line."""
    return ", ".join(f"{kind} {seconds:.0f}" for kind, seconds in kinds.most_common(most))
