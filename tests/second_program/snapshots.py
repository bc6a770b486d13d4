"""What a bug says by its operations, and the text of `show`."""
from second_program.texts import quoted


def once(items):
    found = []
    for it in items:
        if it not in found:
            found.append(it)
    return found


def last_said(ops, name, kinds, default):
    return next((op[name] for op in reversed(ops) if op["kind"] in kinds), default)


def has_label(ops, label):
    """Whether the last operation that names a label leaves it set."""
    for op in reversed(ops):
        if op["kind"] == "labels" and label in op["added"] + op["removed"]:
            return label in op["added"] and label not in op["removed"]
    return False


def bug_labels(ops):
    named = {label for op in ops if op["kind"] == "labels" for label in op["added"] + op["removed"]}
    return [label for label in sorted(named, key=lambda it: it.encode()) if has_label(ops, label)]


def bug_metadata(ops):
    """The metadata of the bug, where what is said first of a key stays."""
    first, metadata = ops[0], {}
    for op in ops:
        said = {}
        if op is first:
            said = op["metadata"]
        elif op["kind"] == "metadata" and op["target"] == first["id"]:
            said = op["new_metadata"]
        for key, value in said.items():
            metadata.setdefault(key, value)
    return sorted(metadata.items(), key=lambda pair: pair[0].encode())


def bug_comments(ops):
    """The operations that make comments, each with the message that it has now."""
    comments = []
    for place, op in enumerate(ops):
        if op["kind"] in ("create", "comment"):
            edits = [it["message"] for it in ops[place + 1:] if it["kind"] == "edit" and it["target"] == op["id"]]
            comments.append((op, edits[-1] if edits else op["message"]))
    return comments


def snapshot(ops):
    """What a bug is, by the last mention of each thing."""
    first, last = ops[0], ops[-1]
    return {
        "id": first["id"],
        "title": last_said(ops, "title", ("create", "title"), ""),
        "status": last_said(ops, "status", ("status",), 1),
        "labels": bug_labels(ops),
        "author": first["author"],
        "first": first["time"],
        "last": last["time"],
        "actors": once(op["author"] for op in ops),
        "participants": once(op["author"] for op in ops if op["kind"] in ("create", "comment")),
        "metadata": bug_metadata(ops),
        "comments": bug_comments(ops),
    }


def combined(primary, secondary):
    one, two = iter(primary), iter(secondary)
    return "".join(next(two if place in (1, 3, 5, 9) or place >= 10 and place % 5 == 4 else one) for place in range(64))


def name_of(id, named):
    return named[id][0] if id in named else id[:7]


def show_text(packs, named):
    bug = snapshot([op for _, pack in packs for op in pack["ops"]])
    name = lambda id: name_of(id, named)
    root = next(pack for _, pack in packs if pack["ops"])
    edit = [pack for _, pack in packs if pack["ops"]][-1]["edit"]
    lines = [f"bug {bug['id']}", f"title {bug['title']}", f"status {'open' if bug['status'] == 1 else 'closed'}"]
    lines += [f"label {it}" for it in bug["labels"]]
    lines += [
        f"author {name(bug['author'])}",
        f"created {root['create']} {bug['first']}",
        f"edited {edit} {bug['last']}",
    ]
    lines += [f"actor {name(it)}" for it in bug["actors"]] + [f"participant {name(it)}" for it in bug["participants"]]
    lines += [f"metadata {quoted(key)} {quoted(value)}" for key, value in bug["metadata"]]
    for op, message in bug["comments"]:
        lines.append(f"comment {combined(bug['id'], op['id'])} {name(op['author'])} {op['time']}")
        lines += ["    " + it for it in message.split("\n")]
    return "".join(it + "\n" for it in lines)
