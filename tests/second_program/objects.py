"""Objects (Git's object format), refs, and folders."""
import hashlib
import os
import re

from second_program.texts import MOST_BYTES, MOST_PACKED, without_line_end


HEX = re.compile(rb"[0-9a-f]{40}")
PACKED = re.compile(rb"#.*|\^[0-9a-f]{40}|([0-9a-f]{40}) (.+)", re.DOTALL)


def framed(kind, content):
    return b"%s %d\0" % (kind, len(content)) + content


def read_object(text):
    """The kind and the content of an object text, or None."""
    head, zero, content = text.partition(b"\0")
    kind, _, size = head.partition(b" ")
    if not zero or kind not in (b"blob", b"tree", b"commit") or size != b"%d" % len(content):
        return None
    if kind == b"tree" and read_tree(content) is None or kind == b"commit" and read_commit(content) is None:
        return None
    return kind, content


def read_tree(content):
    entries, at = [], 0
    while at < len(content):
        found = re.compile(rb"(100644|100755|120000|40000|160000) ([^\0/]+)\0", re.S).match(content, at)
        if not found or len(content) < found.end() + 20:
            return None
        entries.append((found[1], found[2], content[found.end():found.end() + 20].hex()))
        at = found.end() + 20
    names = [name for _, name, _ in entries]
    return entries if len(set(names)) == len(names) else None


def read_commit(content):
    found = re.fullmatch(
        rb"tree ([0-9a-f]{40})\n((?:parent [0-9a-f]{40}\n)*)author [^\n]+\ncommitter [^\n]+\n((?:[^\n]+\n)*)\n(.*)",
        content,
        re.S,
    )
    return (found[1].decode(), [it[7:].decode() for it in found[2].split(b"\n")[:-1]]) if found else None


class Folder:
    """All files of a folder, read once."""

    def __init__(self, path):
        self.files = {}
        for at, _, names in os.walk(path):
            for name in names:
                file = f"{at}/{name}"
                if os.path.isfile(file) and not os.path.islink(file):
                    with open(file, "rb") as it:
                        self.files[os.path.relpath(file, path)] = it.read()
        self.packed = packed_refs(self.files.get("packed-refs", b""))

    def object(self, name, kind):
        """The content of the object of this kind that a name holds, or None."""
        text = self.files.get(f"objects/{name[:2]}/{name[2:]}")
        if text is None or len(text) > MOST_BYTES or hashlib.sha1(text).hexdigest() != name:
            return None
        found = read_object(text)
        return found[1] if found and found[0] == kind else None

    def ids(self, side):
        found = [re.fullmatch(rf"refs/{side}/([0-9a-f]{{64}})", path) for path in [*self.files, *self.packed]]
        return sorted({it[1] for it in found if it})

    def head(self, side, id):
        return ref_at(self, f"refs/{side}/{id}")[1]


def packed_refs(text):
    """The head of each name by its last line, or None where a text is no packed refs."""
    heads = {}
    for line in text.removesuffix(b"\n").split(b"\n") if text else []:
        found = PACKED.fullmatch(line)
        if not found or len(text) > MOST_PACKED:
            return None
        if found[2]:
            heads[found[2].decode("latin-1")] = found[1].decode()
    return heads


def ref_at(folder, ref):
    """Whether a ref stands, and its head, if it reads: its file, or the packed refs where it has none."""
    text = folder.files.get(ref)
    if text is None:
        return ref in folder.packed, folder.packed.get(ref)
    read = HEX.fullmatch(without_line_end(text))
    return True, without_line_end(text).decode() if read else None


def path_of(name):
    return f"objects/{name[:2]}/{name[2:]}"


def lies_below(folder, head, name):
    seen, todo = set(), [head]
    while todo:
        it = todo.pop()
        if it not in seen:
            seen.add(it)
            commit = folder.object(it, b"commit")
            todo += read_commit(commit)[1] if commit is not None else []
    return name in seen
