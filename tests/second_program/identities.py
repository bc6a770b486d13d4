"""Identities: chains of versions."""
import base64
import hashlib
import re

from second_program.texts import (
    LIMIT, decimal, is_line, is_title, members, only, refused, string, whole, without_line_end,
)
from second_program.objects import read_commit, read_tree, ref_at


def version_of(folder, head):
    """The last version below a head, as its fields; None where it has none."""
    commit = folder.object(head, b"commit")
    tree = commit is not None and folder.object(read_commit(commit)[0], b"tree")
    if tree is None or tree is False:
        return None
    blobs = [name for mode, entry, name in read_tree(tree) if entry == b"version" and mode in (b"100644", b"100755")]
    text = folder.object(blobs[0], b"blob") if blobs else None
    return text if text is not None and version_fields(text) is not None else None


def version_fields(text):
    """What a version without keys says, or None."""
    said, keys = version_parts(text) or (None, None)
    return None if keys else said


def version_parts(text):
    """What a version says, and its keys; None where it is none."""
    fields = members(text)
    known = ("version", "name", "email", "login", "avatar_url", "unix_time", "nonce", "pub_keys")
    if fields is None or any(len(fields.get(name, [])) > 1 for name in known) or only(fields, "version") != b"2":
        return None
    said = {}
    for name in ("name", "email", "login", "avatar_url"):
        value = fields.get(name)
        said[name] = string(value[0]) if value else ""
        if said[name] is None or not is_line(said[name]):
            return None
    if not is_title(said["name"]) and not is_title(said["login"]):
        return None
    time = decimal(only(fields, "unix_time") or b"")
    if time is None or time > LIMIT or not is_nonce(only(fields, "nonce")):
        return None
    value = fields.get("pub_keys", [b"null"])[0]
    keys = [] if value == b"null" else whole(value, b"[")
    return None if keys is None else (said, keys)


def is_nonce(value):
    text = value is not None and string(value)
    if not text:
        return False
    try:
        found = base64.b64decode(text, validate=True)
    except ValueError:
        return False
    return 20 <= len(found) <= 64 and base64.b64encode(found).decode() == text


def people(folder):
    """The names and emails by id, or the answers that refuse them: the first identity that is damaged is told."""
    found = {}
    for id in folder.ids("identities"):
        head = folder.head("identities", id)
        text = version_of(folder, head) if head else None
        if text is None:
            return None, refused(f"14 damaged f/refs/identities/{id}")
        said = version_fields(text)
        found[id] = (said["name"] if is_title(said["name"]) else said["login"], said["email"])
    return found, None


def user(folder):
    """The id of the user, None, or False where the user file names no local identity."""
    text = folder.files.get("git-bug/user")
    if text is None:
        return None
    id = without_line_end(text)
    found = re.fullmatch(rb"[0-9a-f]{64}", id) and ref_at(folder, f"refs/identities/{id.decode()}")[0]
    return id.decode() if found else False


def has_chain(folder, id):
    """Whether the versions from an identity's head are one chain without a fault, which begins with that of the id."""
    return is_chain(folder, id, folder.head("identities", id))


def is_chain(folder, id, at):
    while at:
        text = version_of(folder, at)
        if text is None:
            return False
        parents = read_commit(folder.object(at, b"commit"))[1]
        if not parents:
            return hashlib.sha256(text).hexdigest() == id
        at = parents[0] if len(parents) == 1 else None
    return False
