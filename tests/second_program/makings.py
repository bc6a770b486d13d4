"""What makes bugs and persons."""
import hashlib
import json

from second_program.texts import CAP, compact, is_line, is_message, is_title, refused
from second_program.objects import framed
from second_program.identities import has_chain, user
from second_program.commands import (
    blob_of, clock, commit_text, differences, find, op_of, pack_objects, ref_of, see,
    taken_empty_blob, with_objects,
)


def making_answers(folder, words):
    """The answers that refuse a command which makes a bug or a person or sets the user; None where it may be done."""
    command, rest, at = words[0], words[1:], user(folder)
    if command == "user-set":
        return find(folder, "identities", rest[0])[1]
    rules = [is_title, is_message if command == "new" else is_line]
    place = next((place for place, (rule, word) in enumerate(zip(rules, rest), 1) if not rule(word)), None)
    if place:
        return refused(f"4 bad text {place}")
    if at is False:
        return refused("14 damaged f/git-bug/user")
    if at is None and command != "user-new":
        return refused("1 no user")
    if command == "user-edit" and not has_chain(folder, at):
        return refused(f"14 damaged f/refs/identities/{at}")
    return taken_empty_blob(folder) if command == "new" else None


def made(folder, after, words, printed):
    """What is wrong with the files after such a command was done, if something is."""
    id = printed[:-1]
    if words[0] == "user-set":
        want = dict(folder.files)
        want["git-bug/user"] = id.encode() + b"\n"
        return differences(want, after) if id == find(folder, "identities", words[1])[0] else "the id"
    return new_bug(folder, after, words, id) if words[0] == "new" else new_version(folder, after, words, id)


def new_bug(folder, after, words, id):
    written = json.loads(blob_of(after, "bugs", id, b"ops"))["ops"][0]
    op = op_of({"files": [], "message": words[2], "title": words[1], "type": 1}, written)
    create, edit = (min(clock(folder, it) + 1, CAP) for it in ("bugs-create", "bugs-edit"))
    clocks = [b"create-clock-%d" % create, b"edit-clock-%d" % edit]
    objects = pack_objects(user(folder), op, clocks, [], written["timestamp"])
    want = with_objects(folder.files, objects)
    want[f"refs/bugs/{id}"] = ref_of(objects[-1])
    see(want, folder, "bugs-create", create)
    see(want, folder, "bugs-edit", edit)
    return differences(want, after) if id == hashlib.sha256(op.encode()).hexdigest() else f"the id of {op}"


def new_version(folder, after, words, id):
    written = json.loads(blob_of(after, "identities", id, b"version"))
    said = {"email": words[2], "name": words[1], "nonce": written["nonce"], "times": {}}
    text = compact(dict(said, unix_time=written["unix_time"], version=2)).encode()
    blob = framed(b"blob", text)
    tree = framed(b"tree", b"100644 version\0" + hashlib.sha1(blob).digest())
    is_new = words[0] == "user-new"
    commit = commit_text(tree, [] if is_new else [folder.head("identities", id)], written["unix_time"])
    want = with_objects(folder.files, [blob, tree, commit])
    want[f"refs/identities/{id}"] = ref_of(commit)
    if is_new:
        want.setdefault("git-bug/user", id.encode() + b"\n")
    if id != (hashlib.sha256(text).hexdigest() if is_new else user(folder)):
        return "the id"
    return differences(want, after)
