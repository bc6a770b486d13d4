"""Bugs: the packs below one or two heads, in order, if nothing is wrong."""
from second_program.texts import JUMP
from second_program.objects import read_commit
from second_program.packs import read_pack


def entity(folder, id, head):
    """The commits below a head in order, each with its pack; None where something is wrong."""
    return joined_entity(folder, id, [head])


def joined_entity(folder, id, heads):
    """The same of several heads together."""
    below, more = set(), set(heads)
    while more:
        name = more.pop()
        content = folder.object(name, b"commit")
        if content is None or len(below) > 65_536:
            return None
        below.add(name)
        more |= set(read_commit(content)[1]) - below
    parents = {name: read_commit(folder.object(name, b"commit"))[1] for name in below}
    packs = {name: read_pack(folder, name) for name in below}
    if None in packs.values():
        return None
    locals = folder.ids("identities")
    roots = [name for name in below if not parents[name]]
    ids = [op["id"] for pack in packs.values() for op in pack["ops"]]
    if len(roots) > 1 or len(set(ids)) != len(ids) or any(pack["author"] not in locals for pack in packs.values()):
        return None
    for name in below:
        pack, above = packs[name], parents[name]
        if any(pack["edit"] <= packs[it]["edit"] for it in above):
            return None
        if len(above) == 1 and pack["edit"] > packs[above[0]]["edit"] + JUMP or len(above) > 1 and pack["ops"]:
            return None
        if not above and (
            pack["create"] is None
            or not pack["ops"]
            or pack["ops"][0]["kind"] != "create"
            or pack["ops"][0]["id"] != id
        ):
            return None
        if any(op["kind"] == "create" for op in pack["ops"][0 if above else 1:]):
            return None
    order = sorted(below, key=lambda it: (packs[it]["edit"], packs[it]["id"], it))
    return [(name, packs[name]) for name in order]
