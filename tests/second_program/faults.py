"""Faults by their names, as they are printed."""
import hashlib

from second_program.texts import (
    JUMP, LIMIT, MOST_BYTES, MOST_OPS, decimal, is_message, is_title, members, only, string, whole,
)
from second_program.objects import lies_below, path_of, read_commit, read_object, read_tree
from second_program.identities import is_nonce, version_parts
from second_program.packs import HAS, ID, TYPES, member, pairs, read_pack, texts


MEMBERS = ["type", "timestamp", "nonce", "metadata", "title", "was", "message", "files", "status", "added", "removed"]
MEMBERS += ["target", "new_metadata"]


def value_fault(name, value):
    """What is wrong with a value of a member, or None."""
    number, is_good = MEMBERS.index(name) + 1, {"title": is_title, "message": is_message, "was": lambda it: True}
    if name in is_good or name in ("added", "removed"):
        found = texts(value) if name in ("added", "removed") else [string(value)]
        if found is None or None in found:
            return f"bad-member {number}"
        return None if all(map(is_good.get(name, is_title), found)) else f"bad-text {number}"
    return None if member(name, [value]) is not None else f"bad-member {number}"


def member_faults(fields, name):
    """What may be said of a member that only some operations have."""
    values = fields.get(name, [])
    found = {value_fault(name, it) for it in values} - {None}
    if len(values) > 1 or not values and member(name, []) is None:
        found.add(f"bad-member {MEMBERS.index(name) + 1}")
    return found


def op_faults(text):
    """The faults of an operation, each of which may be told."""
    fields = members(text)
    if fields is None:
        return {"not-object"}
    values = {name: fields.get(name, []) for name in MEMBERS[:4]}
    found = {f"bad-member {at}" for at, name in enumerate(MEMBERS[:4], 1) if len(values[name]) > 1}
    types = [decimal(it) for it in values["type"]] or [None]
    found |= {"no-type"} if None in types else set()
    found |= {f"unknown-type {it}" for it in types if it is not None and it not in TYPES}
    times = [decimal(it) for it in values["timestamp"]] or [None]
    found |= {"bad-time"} if any(it is None or it > LIMIT for it in times) else set()
    found |= {"bad-nonce"} if not all(map(is_nonce, values["nonce"] or [None])) else set()
    found |= {"bad-member 4"} if any(it != b"null" and pairs(it) is None for it in values["metadata"]) else set()
    for kind in {TYPES[it] for it in types if it in TYPES}:
        found = found.union(*(member_faults(fields, name) for name in HAS[kind]))
    return found


def object_fault(folder, name, kind, wrong, letter="E"):
    """What is wrong with the object of a name that has to be of a kind, or None."""
    text = folder.files.get(path_of(name))
    if text is None:
        return f"{letter}1 {name}"
    if len(text) > MOST_BYTES:
        return f"{'E20' if letter == 'E' else 'I8'} {MOST_BYTES + 1}"
    if hashlib.sha1(text).hexdigest() != name or not read_object(text):
        return f"{letter}2 {name}"
    return None if read_object(text)[0] == kind else wrong


def pack_faults(commit, text):
    fields = members(text)
    author = members(only(fields, "author") or b"") if fields is not None else None
    id = string(only(author, "id") or b"") if author is not None else None
    values = fields.get("ops", [b"null"]) if fields is not None else []
    slices = ([] if values[0] == b"null" else whole(values[0], b"[")) if len(values) == 1 else None
    found = {f"E8 {commit}"} if id is None or not ID.fullmatch(id) or slices is None else set()
    if found:
        return found
    found |= {f"E9 {commit} {at} {it}" for at, text in enumerate(slices) for it in op_faults(text)}
    return found | ({f"E20 {MOST_OPS + 1}"} if len(slices) > MOST_OPS else set())


def entries_of(folder, commit):
    """The entries of the tree of a commit, or None."""
    tree = folder.object(read_commit(folder.object(commit, b"commit"))[0], b"tree")
    return None if tree is None else read_tree(tree)


def rests_of(entries, front):
    return [name[len(front):] for _, name, _ in entries if name.startswith(front)]


def commit_faults(folder, commit):
    """The faults of a held commit by its tree and its pack."""
    tree = read_commit(folder.object(commit, b"commit"))[0]
    fault = object_fault(folder, tree, b"tree", f"E4 {commit}")
    if fault:
        return {fault}
    entries = entries_of(folder, commit)
    versions, edits = rests_of(entries, b"version-"), rests_of(entries, b"edit-clock-")
    clocks, found = edits + rests_of(entries, b"create-clock-"), set()
    if versions != [b"4"]:
        found |= {f"E5 {commit} {it}" for it in {decimal(it) for it in versions} - {None} or {0}}
    if len(edits) != 1 or len(clocks) > 2 or any(not decimal(it) or decimal(it) > LIMIT for it in clocks):
        found.add(f"E7 {commit}")
    ops = [name for mode, entry, name in entries if entry == b"ops" and mode in (b"100644", b"100755")]
    fault = object_fault(folder, ops[0], b"blob", f"E6 {commit}") if ops else f"E6 {commit}"
    return found | ({fault} if fault else pack_faults(commit, folder.object(ops[0], b"blob")))


def edit_of(folder, commit):
    """The edit clock of a held commit, if it has one."""
    edits = rests_of(entries_of(folder, commit) or [], b"edit-clock-")
    found = decimal(edits[0]) if len(edits) == 1 else None
    return found if found and found <= LIMIT else None


def graph_faults(folder, commits):
    """The faults of roots and clocks, of held commits with their parents."""
    roots = [name for name, parents in commits.items() if not parents]
    found = {f"E10 {name}" for name in roots} if len(roots) > 1 else set()
    edits = {name: edit_of(folder, name) for name in commits}
    for name, parents in commits.items():
        for parent in parents:
            one, above = edits.get(parent), edits[name]
            if one is not None and above is not None and above <= one:
                found.add(f"E11 {name} {parent}")
            if one is not None and above is not None and len(parents) == 1 and above > one + JUMP:
                found.add(f"E12 {name} {parent}")
    return found


def root_faults(id, name, pack):
    found = {f"E14 {name}"} if pack["create"] is None else set()
    if not pack["ops"] or pack["ops"][0]["kind"] != "create":
        found.add("E17")
    if pack["ops"] and pack["ops"][0]["id"] != id:
        found.add(f"E16 {pack['ops'][0]['id']}")
    return found


def ops_faults(folder, id, commits):
    """The faults of commits whose packs read, by their operations and authors."""
    packs = {name: pack for name, pack in ((name, read_pack(folder, name)) for name in commits) if pack}
    ids, found = [op["id"] for pack in packs.values() for op in pack["ops"]], set()
    found |= {f"E15 {it}" for it in ids if ids.count(it) > 1} if len(set(ids)) != len(ids) else set()
    locals = folder.ids("identities")
    for name, pack in packs.items():
        later = pack["ops"] if commits[name] else pack["ops"][1:]
        found |= {f"E18 {op['id']}" for op in later if op["kind"] == "create"}
        found |= {f"E19 {pack['author']}"} if pack["author"] not in locals else set()
        found |= {f"E13 {name}"} if len(commits[name]) > 1 and pack["ops"] else set()
        found |= root_faults(id, name, pack) if not commits[name] else set()
    return found


def entity_faults(folder, id, heads):
    """The faults of a bug below these heads, each of which may be told."""
    commits, found, todo = {}, set(), list(heads)
    while todo:
        name = todo.pop()
        fault = object_fault(folder, name, b"commit", f"E3 {name}")
        found |= {fault} - {None}
        if not fault and name not in commits:
            commits[name] = read_commit(folder.object(name, b"commit"))[1]
            found |= commit_faults(folder, name)
            todo += commits[name]
    found |= graph_faults(folder, commits) | ops_faults(folder, id, commits)
    parted = len(heads) == 2 and not lies_below(folder, *heads) and not lies_below(folder, *heads[::-1])
    return found | {f"E21 {it}" for it in heads if parted and it in commits and edit_of(folder, it) == LIMIT}


def version_faults(folder, commit):
    tree = read_commit(folder.object(commit, b"commit"))[0]
    fault = object_fault(folder, tree, b"tree", f"I4 {commit}", "I")
    if fault:
        return {fault}
    entries = entries_of(folder, commit)
    blobs = [name for mode, entry, name in entries if entry == b"version" and mode in (b"100644", b"100755")]
    fault = object_fault(folder, blobs[0], b"blob", f"I4 {commit}", "I") if blobs else f"I4 {commit}"
    if fault:
        return {fault}
    parts = version_parts(folder.object(blobs[0], b"blob"))
    return {f"I4 {commit}"} if parts is None else {f"I5 {commit}"} if parts[1] else set()


def chain_faults(folder, id, head):
    """The faults of the chain of a person, each of which may be told."""
    found = set()
    while True:
        fault = object_fault(folder, head, b"commit", f"I3 {head}", "I")
        if fault:
            return found | {fault}
        found |= version_faults(folder, head)
        parents = read_commit(folder.object(head, b"commit"))[1]
        if len(parents) > 1:
            return found | {f"I6 {head}"}
        if not parents:
            blobs = [name for _, entry, name in entries_of(folder, head) or [] if entry == b"version"]
            text = folder.object(blobs[0], b"blob") if blobs and not version_faults(folder, head) - {f"I5 {head}"} else None
            first = None if text is None else hashlib.sha256(text).hexdigest()
            return found | ({f"I7 {first}"} if first not in (None, id) else set())
        head = parents[0]


def invalid(faults):
    """The ends of lines that may tell one of these faults. There has to be one."""
    if not faults:
        raise AssertionError("a bug or a person that does not read has no fault by its name")
    return {f"invalid {it}" for it in faults}
