"""Commands: the statuses and texts that may be answered."""
import hashlib
import json
import re

from second_program.texts import (
    CAP, JUMP, LIMIT, MOST_BYTES, compact, decimal, is_message, is_title, refused, without_line_end,
)
from second_program.objects import framed, read_commit, read_tree, ref_at
from second_program.identities import people, user
from second_program.bugs import entity
from second_program.snapshots import combined, show_text, snapshot


USAGE = (2, "usage: gitbug FOLDER COMMAND ARGUMENTS\n")


def taken(given):
    """A command's name and the arguments that are taken of those given after it; None where one is refused."""
    name, rest = given[0], given[1:]
    plain = next((at for at, word in enumerate(rest) if word.startswith("-") and word != "-"), len(rest))
    if plain == len(rest):
        return given
    return [name] + rest[:plain] + rest[plain + 1 :] if rest[plain] == "--" else None


def find(folder, side, word):
    """The id of the side that begins with a word, or the answers that refuse it."""
    fit = sorted(it for it in folder.ids(side) if word and it.startswith(word))
    if len(fit) == 1:
        return fit[0], None
    return None, refused(f"3 ambiguous {fit[0]} {fit[1]}" if fit else "2 not found")


def find_bug(folder, word):
    """The id, the head and the packs of the bug that a word finds, or the answers that refuse it."""
    id, no = find(folder, "bugs", word)
    if no:
        return None, None, None, no
    head = folder.head("bugs", id)
    packs = entity(folder, id, head) if head else None
    return id, head, packs, None if packs else refused(f"14 damaged f/refs/bugs/{id}")


def bug_digits(word):
    """The digits of a word at the places of a bug's id in the id of a comment."""
    return "".join(it for place, it in enumerate(word) if not (place in (1, 3, 5, 9) or place >= 10 and place % 5 == 4))


def find_comment(folder, word):
    """The id, the head and the packs of the bug whose comment begins with a word, and the comment's id; or the answers that refuse it."""
    fit = []
    part = bug_digits(word)
    is_prefix = 0 < len(word) <= 64 and all(it in "0123456789abcdef" for it in word)
    for id in sorted(it for it in folder.ids("bugs") if is_prefix and it.startswith(part)):
        head = folder.head("bugs", id)
        packs = entity(folder, id, head) if head else None
        if not packs:
            return None, None, None, None, refused(f"14 damaged f/refs/bugs/{id}")
        for op, _ in snapshot([op for _, pack in packs for op in pack["ops"]])["comments"]:
            fit.append((combined(id, op["id"]), id, head, packs, op["id"]))
    fit = sorted((it for it in fit if it[0].startswith(word)), key=lambda it: it[0])
    if len(fit) == 1:
        return *fit[0][1:], None
    return None, None, None, None, refused(f"3 ambiguous {fit[0][0]} {fit[1][0]}" if fit else "2 not found")


def answers(folder, words):
    """The answers that a command which reads may give."""
    if words[0] == "users":
        named, no = people(folder)
        at = user(folder)
        if no or at is False:
            return no or refused("14 damaged f/git-bug/user")
        lines = [f"{id}\t{named[id][0]}\t{named[id][1]}" + ("\t*" if id == at else "") + "\n" for id in sorted(named)]
        return {(0, "".join(lines))}
    _, _, packs, no = find_bug(folder, words[1])
    if no:
        return no
    if words[0] == "log":
        return {(0, "".join(f"{pack['edit']} {name}\n" for name, pack in packs))}
    named, no = people(folder)
    return no or {(0, show_text(packs, named))}


def bad_word(words):
    command, rest = words[0], words[2:]
    known = {"comment": [is_message], "edit": [is_message], "title": [is_title], "meta": [is_title, is_message]}
    rules = known.get(command, [is_title] * len(rest))
    return next((place for place, (rule, word) in enumerate(zip(rules, rest), 2) if not rule(word)), None)


def change(words, bug, comment):
    """The members of the operation that an edit adds to a bug, or its refusal."""
    command, rest = words[0], words[2:]
    if command == "edit":
        return {"message": rest[0], "files": [], "target": comment, "type": 6}, None
    order = lambda labels: sorted(set(labels), key=lambda it: it.encode())
    if command == "comment":
        return {"message": rest[0], "files": [], "type": 3}, None
    if command == "noop":
        return {"type": 7}, None
    if command == "title":
        return {"title": rest[0], "was": bug["title"], "type": 2}, None
    if command == "meta":
        return {"target": bug["id"], "new_metadata": {rest[0]: rest[1]}, "type": 8}, None
    if command in ("close", "open"):
        status = 2 if command == "close" else 1
        return ({"status": status, "type": 4}, None) if bug["status"] != status else (None, refused("6 same status"))
    added = order(it for it in rest if it not in bug["labels"]) if command == "label-add" else []
    removed = order(it for it in rest if it in bug["labels"]) if command == "label-rm" else []
    if not added + removed:
        return None, refused("5 no label change")
    return {"added": added, "removed": removed, "type": 5}, None


def find_edited(folder, word):
    id, head, packs, no = find_bug(folder, word)
    return id, head, packs, None, no


def edit_answers(folder, words):
    """What an edit adds, or the answers that refuse it."""
    place, at = bad_word(words), user(folder)
    if place:
        return None, refused(f"4 bad text {place}")
    if not at:
        return None, refused("1 no user" if at is None else "14 damaged f/git-bug/user")
    id, head, packs, comment, no = find_comment(folder, words[1]) if words[0] == "edit" else find_edited(folder, words[1])
    if no:
        return None, no
    said, no = change(words, snapshot([op for _, pack in packs for op in pack["ops"]]), comment)
    if no:
        return None, no
    edit = dict(packs)[head]["edit"]
    if edit == LIMIT:
        return None, refused(f"7 clock full {head}")
    taken = taken_empty_blob(folder)
    return (None, taken) if taken else ((at, id, head, edit, said), None)


def taken_empty_blob(folder):
    """The answers that refuse what would write the empty blob, where other bytes stand under its name."""
    empty = framed(b"blob", b"")
    name = hashlib.sha1(empty).hexdigest()
    taken = folder.files.get(f"objects/{name[:2]}/{name[2:]}", empty) != empty
    return refused(f"10 name taken {name}") if taken else None


def clock(folder, name):
    text = folder.files.get(f"git-bug/clocks/{name}", b"")
    return min(decimal(without_line_end(text)) or 0, CAP) if len(text) <= MOST_BYTES else 0


def commit_text(tree, parents, time):
    """The text of a commit that is written over a tree, which is told by its text."""
    who = f"git-bug <git-bug@localhost> {time} +0000"
    parents = "".join(f"parent {it}\n" for it in parents)
    tree = hashlib.sha1(tree).hexdigest()
    return framed(b"commit", f"tree {tree}\n{parents}author {who}\ncommitter {who}\n\ngit-bug\n".encode())


def with_objects(files, texts):
    """The files with these objects, each where nothing stands."""
    want = dict(files)
    for it in texts:
        name = hashlib.sha1(it).hexdigest()
        want.setdefault(f"objects/{name[:2]}/{name[2:]}", it)
    return want


def ref_of(commit):
    return hashlib.sha1(commit).hexdigest().encode() + b"\n"


def blob_of(folder, side, id, entry):
    """The content of the blob that an entry of the tree of a head names."""
    tree = folder.object(read_commit(folder.object(folder.head(side, id), b"commit"))[0], b"tree")
    return folder.object({name: object for _, name, object in read_tree(tree)}[entry], b"blob")


def pack_objects(author, op, clocks, parents, time):
    """The objects of a commit with a pack of one operation."""
    blobs = [framed(b"blob", b""), framed(b"blob", ('{"author":{"id":"%s"},"ops":[%s]}' % (author, op)).encode())]
    names = [hashlib.sha1(it).digest() for it in blobs]
    entries = [(it, names[0]) for it in clocks] + [(b"ops", names[1]), (b"version-4", names[0])]
    tree = framed(b"tree", b"".join(b"100644 %s\0" % name + object for name, object in entries))
    return blobs + [tree, commit_text(tree, parents, time)]


def see(want, folder, name, number):
    """Has a clock file see a number."""
    now = clock(folder, name)
    seen = max(now, min(number, CAP))
    if seen != now:
        want[f"git-bug/clocks/{name}"] = b"%d" % seen


def op_of(said, written):
    """The text of an operation that says this, of the moment and with the nonce that were written."""
    said = dict(said, nonce=written["nonce"], timestamp=written["timestamp"])
    return "{" + ",".join(f'"{key}":{compact(said[key])}' for key in sorted(said)) + "}"


def differences(want, after):
    differ = [it for it in sorted(set(want) | set(after.files)) if want.get(it) != after.files.get(it)]
    return f"the files {differ}" if differ else None


def edited(folder, after, words, what, printed):
    """What is wrong with the files after an edit that was done, if something is."""
    author, id, head, edit, said = what
    now = clock(folder, "bugs-edit")
    written = json.loads(blob_of(after, "bugs", id, b"ops"))["ops"][0]
    op, later = op_of(said, written), min(max(now, edit) + 1, edit + JUMP)
    objects = pack_objects(author, op, [b"edit-clock-%d" % later], [head], written["timestamp"])
    want = with_objects(folder.files, objects)
    want[f"refs/bugs/{id}"] = ref_of(objects[-1])
    see(want, folder, "bugs-edit", later)
    if printed != hashlib.sha256(op.encode()).hexdigest() + "\n":
        return f"the id of {op}"
    return differences(want, after)


def pack_answers(folder):
    """The answer to a pack of the refs, and the files afterwards."""
    taken, files, heads = [], dict(folder.files), dict(folder.packed)
    for path in sorted(folder.files):
        if re.fullmatch(r"refs/(bugs|identities)/[0-9a-f]{64}", path):
            _, head = ref_at(folder, path)
            if head is None:
                return refused(f"14 damaged f/{path}"), folder.files
            taken.append(path)
            heads[path] = head
    if taken:
        files["packed-refs"] = "".join(f"{heads[name]} {name}\n" for name in sorted(heads)).encode("latin-1")
        for path in taken:
            del files[path]
    return {(0, f"packed {len(taken)}\n")}, files
