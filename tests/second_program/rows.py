"""Rows: what a list shows of each bug, and the file that keeps it."""
import re

from second_program.texts import LIMIT, MOST_BYTES, compact, decimal, is_title, members, string, whole
from second_program.objects import read_commit
from second_program.packs import ID, pairs, read_pack, texts
from second_program.bugs import entity
from second_program.snapshots import snapshot


def row_of(head, packs):
    """The row of a bug at its head, by the names of the members of its file, which are in byte order."""
    bug = snapshot([op for _, pack in packs for op in pack["ops"]])
    holding = [pack for _, pack in packs if pack["ops"]]
    return {
        "actors": bug["actors"],
        "author": bug["author"],
        "comments": len(bug["comments"]),
        "create": holding[0]["create"] or 0,
        "edit": holding[-1]["edit"],
        "first": bug["first"],
        "head": head,
        "id": bug["id"],
        "labels": bug["labels"],
        "last": bug["last"],
        "metadata": dict(bug["metadata"]),
        "participants": bug["participants"],
        "row": 1,
        "status": bug["status"],
        "title": bug["title"],
    }


def is_ascending(items):
    items = [it.encode() for it in items]
    return all(one < next for one, next in zip(items, items[1:]))


def text_that(good):
    """What reads the value of a member that is one text of this kind."""
    def read(value):
        text = string(value)
        return text if text is not None and good(text) else None
    return read


def texts_that(good):
    """What reads the value of a member that is an array of such texts."""
    def read(value):
        found = None if value == b"null" else texts(value)
        return found if found is not None and good(found) else None
    return read


def number(value):
    found = decimal(value)
    return found if found is not None and found <= LIMIT else None


def ascending_pairs(value):
    parts = whole(value, b"{") or []
    said = {string(key): string(text) for key, text in parts}
    if pairs(value) is None or not is_ascending(string(key) for key, _ in parts):
        return None
    return said


are_ids = texts_that(lambda found: all(ID.fullmatch(it) for it in found))
ROW = {
    "actors": are_ids,
    "author": text_that(ID.fullmatch),
    "comments": number,
    "create": number,
    "edit": number,
    "first": number,
    "head": text_that(re.compile("[0-9a-f]{40}").fullmatch),
    "id": text_that(ID.fullmatch),
    "labels": texts_that(lambda found: all(map(is_title, found)) and is_ascending(found)),
    "last": number,
    "metadata": ascending_pairs,
    "participants": are_ids,
    "row": lambda value: 1 if decimal(value) == 1 else None,
    "status": lambda value: decimal(value) if decimal(value) in (1, 2) else None,
    "title": text_that(is_title),
}


def read_row(text):
    """The row that a row file is, or None."""
    fields = members(text) if len(text) <= MOST_BYTES else None
    if fields is None or set(fields) != set(ROW) or any(len(it) > 1 for it in fields.values()):
        return None
    row = {name: read(fields[name][0]) for name, read in ROW.items()}
    return None if None in row.values() else row


def chain_above(folder, head, known):
    """The packs of the commits above a known one, the lowest first, if steps to the only parent lead there from the head; or None."""
    names = []
    while head != known:
        content = folder.object(head, b"commit")
        parents = [] if content is None else read_commit(content)[1]
        if len(parents) != 1:
            return None
        names.append(head)
        head = parents[0]
    return [read_pack(folder, name) for name in reversed(names)]


def with_person(ids, id):
    return ids if id in ids else ids + [id]


def row_after(row, pack, op):
    """A row one operation further, field by field."""
    kind, row = op["kind"], dict(row)
    if kind == "create":
        row.update(id=op["id"], author=op["author"], create=pack["create"] or 0, first=op["time"], metadata=dict(op["metadata"]))
    if kind in ("create", "title"):
        row["title"] = op["title"]
    if kind in ("create", "comment"):
        row.update(comments=min(row["comments"] + 1, 2**64 - 1), participants=with_person(row["participants"], op["author"]))
    if kind == "status":
        row["status"] = op["status"]
    if kind == "labels":
        row["labels"] = sorted({*row["labels"], *op["added"]} - {*op["removed"]}, key=lambda it: it.encode())
    if kind == "metadata" and op["target"] == row["id"]:
        said = {**op["new_metadata"], **row["metadata"]}
        row["metadata"] = dict(sorted(said.items(), key=lambda pair: pair[0].encode()))
    return dict(row, actors=with_person(row["actors"], op["author"]), edit=pack["edit"], last=op["time"])


def fresh_row(folder, id, head, stored):
    """The row of a bug by a stored one of another commit, where a chain leads to that, and else by all of its commits; or None."""
    above = chain_above(folder, head, stored["head"]) if stored else None
    if above is None:
        packs = entity(folder, id, head)
        return row_of(head, packs) if packs else None
    if None in above:
        return None
    row = dict(stored, head=head)
    for pack in above:
        for op in pack["ops"]:
            row = row_after(row, pack, op)
    return row


def row_at(folder, id):
    """The row of a bug, and the text that is stored for it, if one is; or None where it is damaged and has no row."""
    head = folder.head("bugs", id)
    stored = read_row(folder.files.get(f"git-bug/cache/bugs/{id}", b""))
    if head and stored and stored["head"] == head:
        return stored, None
    row = fresh_row(folder, id, head, stored) if head else None
    text = compact(row).encode() if row else None
    return row, text if row and read_row(text) == row else None
