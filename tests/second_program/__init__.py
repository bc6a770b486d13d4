"""The rules of the second program, and the folders that are made for it, part by part.

Each part imports from parts before it. `text` joins them into one, in which tests/worlds turns a rule wrong."""
import pathlib
import re

PARTS = (
    "texts",
    "objects",
    "identities",
    "packs",
    "bugs",
    "faults",
    "snapshots",
    "rows",
    "queries",
    "lists",
    "commands",
    "exchanges",
    "merges",
    "makings",
    "generated",
    "asked",
    "worked",
)
IMPORT = re.compile(r"^from second_program\.\w+ import (?:\([^)]*\)|.*)\n", re.MULTILINE)


def text():
    """The text of all parts, without what they import from each other."""
    here = pathlib.Path(__file__).parent
    return "\n".join(IMPORT.sub("", (here / f"{part}.py").read_text()) for part in PARTS)
