"""Operations and packs."""
import hashlib
import re

from second_program.texts import LIMIT, MOST_OPS, decimal, is_message, is_title, members, only, string, whole
from second_program.objects import read_commit, read_tree
from second_program.identities import is_nonce


TYPES = {1: "create", 2: "title", 3: "comment", 4: "status", 5: "labels", 6: "edit", 7: "nothing", 8: "metadata"}
HAS = {
    "create": ("title", "message", "files"),
    "title": ("title", "was"),
    "comment": ("message", "files"),
    "status": ("status",),
    "labels": ("added", "removed"),
    "edit": ("target", "message", "files"),
    "nothing": (),
    "metadata": ("target", "new_metadata"),
}
ID = re.compile(r"[0-9a-f]{64}")


def texts(value):
    """The texts of null or of an array of texts, or None."""
    parts = [] if value == b"null" else whole(value, b"[")
    found = None if parts is None else [string(it) for it in parts]
    return None if found is None or None in found else found


def pairs(value):
    found = members(value)
    if found is None or None in found or any(len(it) > 1 for it in found.values()):
        return None
    said = {name: string(it[0]) for name, it in found.items()}
    return None if None in said.values() else said


def member(name, values):
    """What a member says, or None where it breaks a rule."""
    if len(values) > 1:
        return None
    if not values:
        return {"was": "", "files": [], "added": [], "removed": []}.get(name)
    value = values[0]
    if name in ("title", "message", "was", "target"):
        text = string(value)
        good = {"title": is_title, "message": is_message, "was": lambda it: True, "target": ID.fullmatch}[name]
        return text if text is not None and good(text) else None
    if name == "status":
        return int(value) if value in (b"1", b"2") else None
    if name == "new_metadata":
        return pairs(value)
    found = texts(value)
    good = (lambda it: re.fullmatch("[0-9a-f]{40}", it)) if name == "files" else is_title
    return found if found is not None and all(good(it) for it in found) else None


def read_op(text):
    """An operation, or None where it has a fault."""
    fields = members(text)
    if fields is None:
        return None
    kind = TYPES.get(decimal(only(fields, "type") or b""))
    time = decimal(only(fields, "timestamp") or b"")
    metadata = fields.get("metadata", [])
    said = {} if not metadata or metadata == [b"null"] else pairs(metadata[0]) if len(metadata) == 1 else None
    if kind is None or time is None or time > LIMIT or not is_nonce(only(fields, "nonce")) or said is None:
        return None
    op = {"id": hashlib.sha256(text).hexdigest(), "kind": kind, "time": time, "metadata": said}
    for name in HAS[kind]:
        op[name] = member(name, fields.get(name, []))
        if op[name] is None:
            return None
    return op


def read_pack(folder, commit):
    """The pack of a commit: its clocks, id, author and operations; None where there is none."""
    content = folder.object(commit, b"commit")
    tree = content is not None and folder.object(read_commit(content)[0], b"tree")
    if tree is None or tree is False:
        return None
    entries = read_tree(tree)
    rests = lambda front: [name[len(front):] for _, name, _ in entries if name.startswith(front)]
    edits, creates = rests(b"edit-clock-"), rests(b"create-clock-")
    ops = [name for mode, entry, name in entries if entry == b"ops" and mode in (b"100644", b"100755")]
    clocks = [decimal(it) for it in edits + creates]
    if (
        rests(b"version-") != [b"4"]
        or len(edits) != 1
        or len(creates) > 1
        or not ops
        or any(not it or it > LIMIT for it in clocks)
    ):
        return None
    text = folder.object(ops[0], b"blob")
    fields = members(text) if text is not None else None
    author = members(only(fields, "author") or b"") if fields is not None else None
    id = string(only(author, "id") or b"") if author is not None else None
    values = fields.get("ops", [b"null"]) if fields is not None else []
    slices = ([] if values[0] == b"null" else whole(values[0], b"[")) if len(values) == 1 else None
    if id is None or not ID.fullmatch(id) or slices is None or len(slices) > MOST_OPS:
        return None
    found = [read_op(it) for it in slices]
    if None in found:
        return None
    for op in found:
        op["author"] = id
    return {
        "edit": clocks[0],
        "create": clocks[1] if creates else None,
        "id": hashlib.sha256(text).hexdigest(),
        "author": id,
        "ops": found,
    }
