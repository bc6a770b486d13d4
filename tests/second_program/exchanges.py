"""Exchanges: copies, fetches and pushes."""
import hashlib
import re

from second_program.texts import MOST_BYTES, MOST_DEEP, refused
from second_program.objects import lies_below, path_of, read_commit, read_object, read_tree, ref_at


SIDES = (("identity", "identities"), ("bug", "bugs"))


def named_by(kind, content):
    """The objects that an object names, each with its kind."""
    if kind == b"commit":
        tree, parents = read_commit(content)
        return [(tree, b"tree")] + [(it, b"commit") for it in parents]
    kinds = {b"40000": b"tree", b"160000": None}
    named = [(name, kinds.get(mode, b"blob")) for mode, _, name in read_tree(content)] if kind == b"tree" else []
    return [(name, kind) for name, kind in named if kind]


def copying(source, target, head, closed):
    """What a copy of a head puts, by path, and why it may be refused."""
    seen, todo, causes, objects = set(), [(head, b"commit", 0)], set(), {}
    while todo:
        name, kind, depth = todo.pop()
        if (name, kind, depth) in seen or closed and kind == b"commit" and target.object(name, kind) is not None:
            continue
        seen.add((name, kind, depth))
        text = source.files.get(path_of(name))
        found = text is not None and hashlib.sha1(text).hexdigest() == name and read_object(text)
        if text is None:
            causes.add(f"missing {name}")
        elif len(text) > MOST_BYTES:
            causes.add(f"large {MOST_BYTES + 1}")
        elif not found:
            causes.add(f"bytes {name}")
        elif found[0] != kind:
            causes.add(f"kind {name}")
        else:
            objects[path_of(name)] = text
            deeper = min(depth + 1, MOST_DEEP + 1)
            todo += [(it, below, deeper if kind == below == b"tree" else 0) for it, below in named_by(*found)]
            if depth > MOST_DEEP:
                causes.add(f"large {depth}")
            if target.files.get(path_of(name), text) != text:
                causes.add(f"taken {name}")
    return objects, causes


def chain_of(folder, head):
    """The commits from a head to the first that has not one parent."""
    names, commit = [head], folder.object(head, b"commit")
    while commit is not None and len(read_commit(commit)[1]) == 1 and len(names) < 65_536:
        names.append(read_commit(commit)[1][0])
        commit = folder.object(names[-1], b"commit")
    return names


class Exchange:
    """The lines that an exchange may print, and what stands in the folder in which it writes: for certain, and perhaps."""

    def __init__(self, target):
        self.target, self.lines, self.perhaps, self.refusal = target, [], {}, None

    def add(self, line, outcomes):
        self.lines.append({f"{line} {it}" for it in outcomes})

    def carry(self, line, source, head, closed, ref, done):
        objects, causes = copying(source, self.target, head, closed)
        if causes:
            self.perhaps.update(objects)
            return self.add(line, {f"damaged {it}" for it in causes})
        for path, text in objects.items():
            self.target.files.setdefault(path, text)
        self.target.files[ref] = head.encode() + b"\n"
        return self.add(line, {done})

    def is_damaged(self):
        return any(re.match("push identity [0-9a-f]{64} damaged", it) for lines in self.lines for it in lines)


def fetched(own, peer, remote):
    does = Exchange(own)
    for word, side in SIDES:
        for id in peer.ids(side):
            ref, head, line = f"refs/remotes/{remote}/{side}/{id}", peer.head(side, id), f"fetch {word} {id}"
            stands, tracked = ref_at(own, ref)
            if head is None:
                does.add(line, {"damaged ref"})
            elif stands and tracked is None:
                does.refusal = refused(f"14 damaged f/{ref}")
                return does
            elif tracked == head:
                does.add(line, {"same"})
            else:
                does.carry(line, peer, head, True, ref, "fetched")
    return does


def pushed(own, peer):
    does = Exchange(peer)
    for word, side in SIDES:
        held = word == "bug" and does.is_damaged()
        for id in own.ids(side):
            ref, head, line = f"refs/{side}/{id}", own.head(side, id), f"push {word} {id}"
            stands, theirs = ref_at(peer, ref)
            if held:
                does.add(line, {"held"})
            elif head is None:
                does.refusal = refused(f"14 damaged f/{ref}")
                return does
            elif theirs == head:
                does.add(line, {"same"})
            elif stands and theirs is None:
                does.add(line, {"damaged ref"})
            elif stands and not lies_below(own, head, theirs):
                does.add(line, {f"not-forward {theirs}"})
            else:
                does.carry(line, own, head, False, ref, "pushed")
    return does
