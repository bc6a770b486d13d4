"""The texts of lists, and the widths of characters."""
import unicodedata

from second_program.texts import refused
from second_program.identities import people
from second_program.snapshots import name_of
from second_program.rows import row_at
from second_program.queries import read_query, selected


STATUSES = {1: "open", 2: "closed"}
HEADER = " ".join(["ID     ", "STATUS", "TITLE" + 35 * " ", "AUTHOR" + 9 * " ", "CMTS\n"])


def list_text(rows, named):
    parts = lambda it: [it["id"][:7], STATUSES[it["status"]], it["title"], name_of(it["author"], named), str(it["comments"])]
    return "".join("\t".join(parts(it) + it["labels"]) + "\n" for it in rows)


def board_text(rows, named):
    lines = [
        [it["id"][:7], STATUSES[it["status"]].ljust(6), cell(it["title"], 40), cell(name_of(it["author"], named), 15)]
        + [str(it["comments"]).rjust(4) + "\n"]
        for it in rows
    ]
    counts = [sum(it["status"] == status for it in rows) for status in (1, 2)]
    return HEADER + "".join(map(" ".join, lines)) + "%d open, %d closed\n" % tuple(counts)


def cell(text, columns):
    """A text in so many columns: with spaces after it, or its longest prefix of which each one fits before `~`."""
    if width(text) <= columns:
        return text + " " * (columns - width(text))
    front = ""
    for char in text:
        if width(front + char) > columns - 1:
            break
        front += char
    return front + "~" + " " * (columns - 1 - width(front))


# The columns of texts of the characters that are made here, as the kit's `unicode_width` counts them by Unicode 18. Python's
# tables are older, and do not say that these have no columns, or two.
ZERO = "\u00ad\u061c\u200b\u200c\u200d\u200e\u202e\u2060\u2066\ufeff\ufff0\U000e0fff\U000e0061\u1161\u11a8\u0605\u0d4e"
WIDE = "\U0002fffd"
EMOJI = "🐛👩🔬👍🌈⌚🈚🀄"
VARIED = "0123456789#*©❤☀☝🏳👍⌚🈚🀄"
TONED = "👩👍☝"
QUOTES = "‘’“”"

# What a character of one kind adds before what begins with another, and what they begin with then.
JOINS = {
    ("joiner", "emoji"): (0, "joined"),
    ("joiner", "tone"): (0, "joined"),
    ("joiner", "flags"): (0, "joined"),
    ("joiner", "even"): (0, "joined"),
    ("joiner", "odd"): (0, "joined"),
    ("emoji", "joined"): (0, "emoji"),
    ("tone", "joined"): (0, "tone"),
    ("keycap", "joined"): (0, "joined keycap"),
    ("flag", "joined"): (1, "one"),
    ("flag", "one"): (-1, "even"),
    ("flag", "even"): (3, "odd"),
    ("flag", "odd"): (-1, "even"),
    ("flag", "flag"): (1, "flags"),
    ("flag", "flags"): (1, "flags"),
    ("lam", "alef"): (0, ""),
    ("mark", "alef"): (0, "alef"),
}


def kind_of(char):
    kinds = {"\u200d": "joiner", "\u20e3": "keycap", "\u0644": "lam", "\u0627": "alef", "\u064e": "mark"}
    if char in EMOJI:
        return "emoji"
    if "\U0001f3fb" <= char <= "\U0001f3ff":
        return "tone"
    return "flag" if "\U0001f1e6" <= char <= "\U0001f1ff" else kinds.get(char, "")


def alone(char, kind):
    """What a character adds that joins nothing after it, and what the text begins with then."""
    if kind in ("emoji", "tone"):
        return 2, kind
    category = unicodedata.category(char)
    if char in ZERO or category in ("Mn", "Me"):
        return 0, ""
    is_wide = char in WIDE or category != "Cn" and unicodedata.east_asian_width(char) in "WF"
    return 2 if is_wide else 1, kind if kind in ("flag", "alef") else ""


def width(text):
    """The columns of a text. It is read from its end, since a character may join those after it."""
    total, after, selector = 0, "", ""
    for char in reversed(text):
        more, after, selector = step(char, after, selector)
        total += more
    return total


def step(char, after, selector):
    """What a character adds to a text that begins with something, or with a selector; and what the text begins with then."""
    is_joined = after in ("joined", "joined keycap")
    if selector == "\ufe0f":
        if char in VARIED:
            return 0 if is_joined else 2, "emoji", ""
        after, is_joined, selector = "", False, ""
    if char in "\ufe01\ufe0e\ufe0f":
        return 0, after if is_joined and char == "\ufe0f" else "", char
    if selector == "\ufe0e" and char in VARIED and char in EMOJI and not "\U0001f200" <= char <= "\U0001f2ff":
        return 1, "", ""
    if selector == "\ufe01" and char in QUOTES:
        return 2, "", ""
    if after == "tone" and char in TONED:
        return 0, "emoji", ""
    kind = kind_of(char)
    return *(JOINS.get((kind, after)) or alone(char, kind)), ""


def list_answers(folder, words):
    """The answers that a list may give, and the files afterwards: the rows that it stored, before it was refused too."""
    asked, no = read_query(" ".join(words[1:]))
    if no:
        return no, folder.files
    named, no = people(folder)
    if no:
        return no, folder.files
    files, rows = dict(folder.files), []
    for id in folder.ids("bugs"):
        row, text = row_at(folder, id)
        if row is None:
            return refused(f"14 damaged f/refs/bugs/{id}"), files
        rows.append(row)
        if text is not None:
            files[f"git-bug/cache/bugs/{id}"] = text
    print_rows = list_text if words[0] == "ls" else board_text
    return {(0, print_rows(selected(rows, asked, named), named))}, files
