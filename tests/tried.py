"""The records of planted bugs: what tests/plant has tried, as a sum of the text that it was tried on.

A record is the file tests/planted/NAME/TRIED. Its sum is of the crate's clauses, its definitions in specs/ and the bugs. A
record says that the prover refused each bug over that text. It is no proof: someone may have written it by hand."""

import hashlib
import pathlib
import re

TOP = pathlib.Path(__file__).resolve().parent.parent
PLANTED = TOP / "tests/planted"
CLAUSE = re.compile(r"^\s*(?:ensures|requires)\b[^{}]*\{", re.MULTILINE)


def clauses(text):
    """The contracts' clauses in a source, each from its keyword to the brace that closes it."""
    for found in CLAUSE.finditer(text):
        depth, end = 1, found.end()
        while depth and end < len(text):
            depth += {"{": 1, "}": -1}.get(text[end], 0)
            end += 1
        yield " ".join(text[found.start() : end].split())


def edits_of(name):
    return sorted((PLANTED / name).glob("*.edit"))


def planted():
    """The crates that have planted bugs."""
    return sorted(it.name for it in PLANTED.iterdir() if edits_of(it.name))


def sum_of(name):
    """The sum of what a try of a crate's planted bugs is about."""
    crate, total = TOP / "crates" / name, hashlib.sha256()
    for file in sorted((crate / "src").rglob("*.rt")):
        total.update("\n".join(clauses(file.read_text())).encode() + b"\0")
    for file in [*sorted((crate / "specs").rglob("*.antt")), *edits_of(name)]:
        total.update(f"{file.name}\n".encode() + file.read_bytes() + b"\0")
    return total.hexdigest()


def applies(name, edit):
    """Whether each old text of an edit exists exactly once in the file that the edit names above it."""
    source = ""
    for line in edit.read_text().splitlines():
        field, _, text = line.partition(": ")
        if field == "file":
            file = TOP / "crates" / name / text
            source = file.read_text() if file.exists() else ""
        elif field == "old" and source.count(text) != 1:
            return False
    return True


def record_of(name):
    return PLANTED / name / "TRIED"


def is_fresh(name):
    """Whether a crate's bugs were tried over its text of now."""
    record = record_of(name)
    return record.exists() and record.read_text().strip() == sum_of(name) and all(applies(name, it) for it in edits_of(name))


def stale():
    """The crates whose planted bugs were not tried over their text of now."""
    return [it for it in planted() if not is_fresh(it)]
