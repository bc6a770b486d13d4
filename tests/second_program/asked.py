"""Lists that are asked for, and rows that are spoiled before them."""
import hashlib
import json
import os
import re

from second_program.texts import LIMIT, MOST_BYTES, compact, quoted
from second_program.objects import Folder
from second_program.identities import people
from second_program.bugs import entity
from second_program.snapshots import name_of
from second_program.rows import row_at, row_of
from second_program.queries import FIELDS
from second_program.generated import LABELS, Maker, VALUES, odd_text


def add_bugs(chance, path):
    """Adds some bugs without a fault, by people of the folder."""
    maker, authors = Maker(path, chance), Folder(path).ids("identities")
    for _ in range(chance.choice([0, 1, 1, 2, 3, 5]) if authors else 0):
        id, head = maker.bug(authors, None)
        maker.write(f"refs/bugs/{id}", head.encode() + b"\n")


def add_rows(chance, path):
    """Writes rows of most damaged bugs, so that they are listed though they do not read."""
    folder = Folder(path)
    for id in folder.ids("bugs"):
        head = folder.head("bugs", id)
        if head and not row_at(folder, id)[0] and chance.random() < 0.7:
            row = dict(MADE_UP, head=head, id=id, title=odd_text(chance, 30), status=chance.choice([1, 2]))
            row.update(author=chance.choice(folder.ids("identities") + ["2" * 64]), create=chance.choice([1, 7]))
            Maker(path, chance).write(f"git-bug/cache/bugs/{id}", compact(row).encode())


def rows_in(folder):
    """The rows of the bugs that have one."""
    return [row for row, _ in (row_at(folder, id) for id in folder.ids("bugs")) if row]


# A row of no bug.
MADE_UP = {
    "actors": ["1" * 64],
    "author": "1" * 64,
    "comments": 3,
    "create": 2,
    "edit": 5,
    "first": 0,
    "head": "2" * 40,
    "id": "1" * 64,
    "labels": ["a", "é"],
    "last": 9,
    "metadata": {"k": "w"},
    "participants": [],
    "row": 1,
    "status": 2,
    "title": "Login works",
}


def other_values(name, row, chance):
    """What a member of a row may say beside what it says, mostly of its form. No two rows get one id."""
    id, labels = chance.randbytes(32).hex(), ["a", "b", "é"]
    people = [[], [id], [row["author"]] * 2, [row["author"], id], None, ["x"]]
    numbers = [0, 1, 7, 9999, 12345, LIMIT, LIMIT + 1, -1, "7"]
    known = {
        "actors": people,
        "participants": people,
        "labels": [[], labels, labels[::-1], ["a", "a"], [""], [" ", "a"], ["日本"], None],
        "metadata": [{"a": "1", "b": "w"}, {"b": "1", "a": "1"}, {"é": "", "k": "w"}, {"": "", "k": "v\n"}, {"k": 1}, None],
        "row": [1, 2, "1", 0],
        "status": [1, 2, 3, "1"],
        "title": ["t", "", " ", "tab\tin", "ANA", "x" * 40, odd_text(chance, 30)],
    }
    return known.get(name, numbers if isinstance(row[name], int) else [id, id, id[:40], id.upper(), ""])


def row_texts(chance, row, other):
    """Texts for the file of a row: the row written in another way, rows of other heads and bugs, and no rows."""
    said, items = compact(row), list(row.items())
    name = chance.choice([*row, "id", "labels", "metadata", "metadata", "title", "row"])
    chance.shuffle(items)
    member, without = f"{quoted(name)}:{compact(row[name])}", {it: row[it] for it in row if it != name}
    changed = dict(row, **{name: chance.choice(other_values(name, row, chance) if chance.random() < 0.8 else VALUES)})
    write = lambda row: json.dumps(row, ensure_ascii=False, separators=(",", ":"))
    at, byte = chance.randrange(len(said)), bytes([chance.choice([*range(32, 127), 0, 255])])
    texts = [
        said,
        json.dumps(dict(items), ensure_ascii=chance.random() < 0.5, indent=1),
        " " + said.replace(f'"{name}"', '"\\u%04x%s"' % (ord(name[0]), name[1:]), 1) + "\n",
        *[write(changed)] * 8,
        *[write(dict(row, head=head)) for head in ("0" * 40, other["head"])],
        *[write(other), write(dict(other, id=row["id"]))],
        *[write(without), said[:-1] + f",{member}}}", "{" + member + "," + said[1:]],
        *[said[:-1] + ',"more":1}', said[:-1] + ',"\\ud800":1}', write(without)[:-1] + ',"\\ud800":1}'],
        *["", "{}", "x", "null", row["head"] + "\n", write(list(row.values()))],
    ]
    cuts = [said.encode()[:at], said[:at].encode() + byte + said[at + 1 :].encode()]
    return [it.encode() for it in texts] + cuts * 2


def spoil_row(chance, path):
    """Removes the row file of a bug, or writes another one, perhaps a row with as many bytes as it may have, or one more."""
    folder = Folder(path)
    ids, rows = folder.ids("bugs"), rows_in(folder)
    if not ids:
        return
    id, kind = chance.choice(ids), chance.random()
    place = f"git-bug/cache/bugs/{id}"
    row = row_at(folder, id)[0] or dict(MADE_UP, head=folder.head("bugs", id) or "1" * 40, id=id)
    if kind < 0.15:
        if place in folder.files:
            os.remove(f"{path}/{place}")
    elif kind < 0.2:
        Maker(path, chance).write(place, compact(row).encode().ljust(MOST_BYTES + chance.randrange(2)))
    else:
        others = [it for it in rows if it["head"] != row["head"]] or [MADE_UP]
        Maker(path, chance).write(place, chance.choice(row_texts(chance, row, chance.choice(others))))


def part_of(chance, text):
    """Some of a text, perhaps in other letters."""
    begin = chance.randrange(len(text) + 1)
    part = chance.choice([text, text[begin : begin + chance.choice([1, 2, 5, 20])]])
    part = part if chance.random() < 0.05 else part.split('"')[-1]
    return chance.choice([str, str, str.upper, str.lower, str.casefold, str.swapcase])(part)


def valued(chance, text):
    """A value that says a text, mostly as it must."""
    value = f'"{text}"' if chance.random() < 0.4 or not text or re.search("[ \t]", text) else text
    return value if chance.random() < 0.98 else chance.choice([value + '"', '"' + value, text, value + "x"])


def values_for(chance, field, rows, named):
    """The value of a word of this field, mostly one that some bug has."""
    if field in ("status", "no", "sort"):
        known = list(FIELDS[field])
        good = chance.choice(known)
        return chance.choice([good] * 60 + [f'"{good}"', good + "n", "", good.upper()])
    row = chance.choice(rows or [MADE_UP])
    if field == "metadata":
        key, text = chance.choice([*row["metadata"].items()] * 2 + [("k", "w"), ("a", "1"), ("a:b", ""), ("", "v")])
        return chance.choice([valued(chance, key) + ":" + valued(chance, text)] * 9 + [valued(chance, key)])
    if field == "label":
        label = chance.choice(row["labels"] * 2 + LABELS)
        return valued(chance, chance.choice([label, label, label.upper(), label.lower(), label[:1]]))
    if field == "title":
        return valued(chance, part_of(chance, row["title"]))
    id = chance.choice([row["author"]] + row["actors"] + row["participants"])
    digits = id[: chance.choice([1, 7, 8, 64])]
    return valued(chance, chance.choice([part_of(chance, name_of(id, named)), digits, digits, digits.upper(), "zz", ""]))


def listing(chance, folder):
    """The words of a list: `ls` or `board`, and a query, mostly a good one, as one argument or more."""
    rows, named = rows_in(folder), people(folder)[0] or {}
    terms = []
    for _ in range(chance.choice([0, 0, 1, 1, 1, 2, 3])):
        field = chance.choice([it for it in FIELDS if it != "sort"])
        name = field if chance.random() < 0.98 else chance.choice(["x", "", "Label"])
        terms.append(f"{name}:" + values_for(chance, field, rows, named))
    if chance.random() < 0.5:
        terms.append("sort:" + values_for(chance, "sort", rows, named))
    terms += [chance.choice(["fails", ":", '"', "sort:id", "a\u3000b", "-"])] * (chance.random() < 0.04)
    chance.shuffle(terms)
    text = chance.choice([" ", " ", "  ", "\t"]).join(terms)
    arguments = text.split(" ") if chance.random() < 0.7 and text else [text] if text or chance.random() < 0.2 else []
    return [chance.choice(["ls", "board"])] + arguments


def huge_bug(chance, path, more):
    """Makes a folder of a person and a bug whose row has so many bytes more than a row file may have."""
    maker = Maker(path, chance)
    at = maker.plan([maker.identity(False)], [], {}, None, [])
    op = maker.op("create", None, [])
    title, size = "a", 0
    while size != MOST_BYTES + more:
        title += "a" * (MOST_BYTES + more - size if size else 0)
        text = maker.text(dict(op, title=title))
        id = hashlib.sha256(text.encode()).hexdigest()
        head = maker.commit(maker.tree(maker.entries(at, [text], maker.put(b"blob", b""), True)), [])
        size = len(compact(row_of(head, entity(Folder(path), id, head))))
    maker.write(f"refs/bugs/{id}", head.encode() + b"\n")
