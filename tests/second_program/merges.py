"""Merges and pulls."""
import hashlib
import re

from second_program.texts import LIMIT, refused
from second_program.objects import framed, lies_below, path_of, ref_at
from second_program.identities import is_chain, user
from second_program.bugs import joined_entity
from second_program.faults import chain_faults, entity_faults, invalid
from second_program.commands import clock, commit_text, see
from second_program.exchanges import Exchange, chain_of, fetched


def merge_person(does, own, id, local, tracked):
    line = f"merge identity {id}"
    if local and tracked in chain_of(own, local):
        return does.add(line, {"nothing"})
    if not is_chain(own, id, tracked):
        return does.add(line, invalid(chain_faults(own, id, tracked)))
    if local and local not in chain_of(own, tracked):
        return does.add(line, {f"not-forward {tracked}"})
    own.files[f"refs/identities/{id}"] = tracked.encode() + b"\n"
    return does.add(line, {"forward" if local else "new"})


def merge_bug(does, own, after, id, local, tracked, author):
    line = f"merge bug {id}"
    if local and lies_below(own, local, tracked):
        return does.add(line, {"nothing"})
    heads = [local, tracked] if local else [tracked]
    packs = joined_entity(own, id, heads)
    if packs is None:
        return does.add(line, invalid(entity_faults(own, id, heads)))
    clocks = {name: pack["edit"] for name, pack in packs}
    create = next(pack["create"] for _, pack in packs if pack["create"] is not None)
    head, edit, word = tracked, clocks[tracked], "forward" if local else "new"
    if local and not lies_below(own, tracked, local):
        edit = max(clock(own, "bugs-edit"), clocks[local], clocks[tracked]) + 1
        if LIMIT in (clocks[local], clocks[tracked]):
            return does.add(line, invalid(entity_faults(own, id, heads)))
        objects = merge_objects(author, edit, [local, tracked], time_of_head(after, id))
        names = [hashlib.sha1(it).hexdigest() for it in objects]
        taken = [name for name, it in zip(names, objects) if own.files.get(path_of(name), it) != it]
        if taken:
            does.refusal = refused(*(f"10 name taken {name}" for name in taken))
            return None
        own.files.update((path_of(name), it) for name, it in zip(names, objects))
        head, word = names[-1], "joined"
    own.files[f"refs/bugs/{id}"] = head.encode() + b"\n"
    see(own.files, own, "bugs-create", create)
    see(own.files, own, "bugs-edit", edit)
    return does.add(line, {word})


def merge_objects(author, edit, parents, time):
    blobs = [framed(b"blob", b""), framed(b"blob", ('{"author":{"id":"%s"},"ops":[]}' % author).encode())]
    names = [hashlib.sha1(it).digest() for it in blobs]
    entries = [(b"edit-clock-%d" % edit, names[0]), (b"ops", names[1]), (b"version-4", names[0])]
    tree = framed(b"tree", b"".join(b"100644 %s\0" % name + object for name, object in entries))
    return blobs + [tree, commit_text(tree, parents, time)]


def time_of_head(folder, id):
    """The time of the commit that is the head of a bug, which the program took from its clock; 0 where it has none."""
    head = folder.head("bugs", id)
    commit = folder.object(head, b"commit") if head else None
    found = commit is not None and re.search(rb"\nauthor [^\n]* (\d+) \+0000\n", commit)
    return int(found[1]) if found else 0


def merged(does, after, remote):
    """Adds a merge to what was done: a line for each tracked identity, and then for each tracked bug."""
    own, author = does.target, user(does.target)
    for side, one in (("identities", merge_person), ("bugs", merge_bug)):
        for id in own.ids(f"remotes/{remote}/{side}"):
            tracking, ref = f"refs/remotes/{remote}/{side}/{id}", f"refs/{side}/{id}"
            (_, tracked), (stands, local) = ref_at(own, tracking), ref_at(own, ref)
            if tracked is None or stands and local is None:
                does.refusal = refused(f"14 damaged f/{tracking if tracked is None else ref}")
                return does
            one(*(does, own, id, local, tracked) if side == "identities" else (does, own, after, id, local, tracked, author))
            if does.refusal:
                return does
    return does


def merge_or_pull(own, peer, after, words):
    does = Exchange(own)
    if user(own) in (None, False):
        does.refusal = refused("14 damaged f/git-bug/user" if user(own) is False else "1 no user")
        return does
    if words[0] == "pull":
        does = fetched(own, peer, words[1])
    return does if does.refusal else merged(does, after, words[1])
