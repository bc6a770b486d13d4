"""Queries: which bugs match, and in which order."""
import re

from second_program.texts import refused
from second_program.snapshots import name_of


ORDERS = ("id", "creation", "edit")
FIELDS = {
    "status": {"open": 1, "closed": 2},
    "author": None,
    "participant": None,
    "actor": None,
    "metadata": None,
    "label": None,
    "title": None,
    "no": {"label": True},
    "sort": {key + way: (key, way == "-desc" or not way and key != "id") for key in ORDERS for way in ("", "-asc", "-desc")},
}


def said_by(value):
    """The text of a value: what is in its two quotes, or all of it where it has none."""
    found = re.fullmatch(r'"([^"]*)"|([^"]+)', value)
    return found and (found[1] if found[2] is None else found[2])


def term_of(field, value):
    """What a word of this field says, or None where its value is not as it must be."""
    if field == "metadata":
        cut = re.fullmatch(r'((?:"[^"]*"|[^":])*):(.*)', value, re.S)
        key, text = (said_by(cut[1]), said_by(cut[2])) if cut else (None, None)
        return (key, text) if key and text is not None else None
    text = said_by(value)
    return text if FIELDS[field] is None else FIELDS[field].get(text)


def read_query(text):
    """What a query asks by its fields, or the answers that refuse it. Places are counted in bytes."""
    refuse = lambda kind, place: (None, refused(f"16 bad query {kind} {len(text[:place].encode())}"))
    if text.count('"') % 2:
        return refuse(3, text.rindex('"'))
    asked = {field: [] for field in FIELDS}
    for word in re.finditer(r'(?:"[^"]*"|[^" \t])+', text):
        field, colon, value = word[0].partition(":")
        if not colon or field not in FIELDS:
            return refuse(1, word.start())
        term = term_of(field, value)
        if term is None or field == "sort" and asked[field]:
            return refuse(2, word.start())
        asked[field].append(term)
    return asked, None


def is_in(text, found):
    """Whether a text is in another one, both folded by Unicode's full case folding.

    Python folds by Unicode 14 or later, the program by Unicode 18. They differ for letters that came in between, and none of
    these is in a text that is made here."""
    return text.casefold() in found.casefold()


def matches(row, asked, named):
    is_person = lambda text, id: is_in(text, name_of(id, named)) or id.startswith(text)
    among = lambda field, ids: any(is_person(text, id) for text in asked[field] for id in ids)
    return (
        (not asked["status"] or row["status"] in asked["status"])
        and (not asked["author"] or among("author", [row["author"]]))
        and (not asked["participant"] or among("participant", row["participants"]))
        and (not asked["actor"] or among("actor", row["actors"]))
        and (not asked["metadata"] or any(row["metadata"].get(key) == text for key, text in asked["metadata"]))
        and all(it in row["labels"] for it in asked["label"])
        and all(is_in(it, row["title"]) for it in asked["title"])
        and not (asked["no"] and row["labels"])
    )


def selected(rows, asked, named):
    """The rows that match, in the order of the query. Where clocks are equal, ids ascend in both directions."""
    key, is_down = asked["sort"][0] if asked["sort"] else ("creation", True)
    rows = sorted((it for it in rows if matches(it, asked, named)), key=lambda it: it["id"], reverse=key == "id" and is_down)
    clock = {"id": lambda it: 0, "creation": lambda it: it["create"], "edit": lambda it: it["edit"]}[key]
    return sorted(rows, key=lambda it: -clock(it) if is_down else clock(it))
