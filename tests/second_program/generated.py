"""Generated folders, and what is spoiled in them."""
import base64
import hashlib
import json
import os
import re
import shutil

from second_program.texts import JUMP, LIMIT, is_title, without_line_end
from second_program.objects import Folder, HEX, framed, packed_refs, read_commit
from second_program.packs import HAS, TYPES
from second_program.bugs import entity
from second_program.snapshots import bug_comments, combined


WORDS = ["Login fails", "x", "é", "a b", "\U0001f41b", "tab\tin", 'q"q', "zz", "long " * 9]
LABELS = ["a", "b", "c", "needs info", "é", "É", "日本", "e\u0301"]
NAMES = ["Ana", "Bo", "é", "Zoë Q", "Straße", "ANA LUISA DE ALMEIDA", "日本語の名前です", "0a"]

# What texts are made of that are measured and folded. Python and the program know all of it alike, though by tables of other
# versions of Unicode. Letters that ligatures of other scripts join are left out, and marks of flags.
PIECES = [
    *["a", "Z", " ", "q ", "~", '"', "\\", "7", "#", "Log ", "fails", "\u00a0", "\u2028", "\u3000"],
    *["é", "É", "ß", "ẞ", "ſ", "İ", "ı", "ﬁ", "ŉ", "ΐ", "ς", "Σ", "ᾳ", "\u212a", "Å", "ǆ", "և", "Ꭰ", "ꭰ", "\U00010400"],
    *["語", "日本", "あ", "Ｆ", "한", "ｶ", "\u1100", "\u1161", "\u11a8", "\U00020000", "、"],
    *["\u0301", "\u0338", "\u0345", "\u20e3", "\u0903", "\u0e31", "\u034f", "\u0d4e", "\u0600", "\u0605"],
    *["\u00ad", "\u061c", "\u200b", "\u200c", "\u200d", "\u200e", "\u202e", "\u2060", "\u2066", "\ufeff", "\U000e0061"],
    *["\ufe00", "\ufe01", "\ufe0e", "\ufe0f", "‘", "”", "1\ufe0f\u20e3", "©", "é\u0301\u0301"],
    *["🐛", "👩", "🔬", "👍", "🌈", "⌚", "🈚", "🀄", "❤", "☀", "☝", "\U0001f3fd", "👩\u200d🔬", "🏳\ufe0f\u200d🌈", "🇩🇪", "🇫"],
    *["لا", "ل\u064eا", "با", "ﻻ", "\u0378", "\ufff0", "\U000e0fff", "\U0002fffd", "\ue000", "\uffff", "\U0010ffff"],
]


def odd_text(chance, most):
    """A title of at most so many odd pieces."""
    text = "".join(chance.choice(PIECES) for _ in range(chance.randrange(1, most + 1)))
    return text if is_title(text) else text + "t"


class Maker:
    """A folder in the making, of which one thing may be other than good."""

    def __init__(self, path, chance):
        self.path, self.chance, self.made, self.names = path, chance, [], 0

    def write(self, place, text):
        file = f"{self.path}/{place}"
        os.makedirs(os.path.dirname(file), exist_ok=True)
        with open(file, "wb") as it:
            it.write(text)

    def put(self, kind, content):
        text = framed(kind, content)
        name = hashlib.sha1(text).hexdigest()
        self.write(f"objects/{name[:2]}/{name[2:]}", text)
        self.made.append(name)
        return name

    def nonce(self):
        return base64.b64encode(self.chance.randbytes(self.chance.choice([20, 20, 32, 64]))).decode()

    def commit(self, tree, parents):
        lines = [f"tree {tree}"] + [f"parent {it}" for it in parents] + ["author a", "committer b"]
        if self.chance.random() < 0.1:
            lines.append("gpgsig x\n y")
        message = self.chance.choice(["git-bug\n", "", "m\n\nn"])
        return self.put(b"commit", ("\n".join(lines) + "\n\n" + message).encode())

    def tree(self, entries):
        parts = [b"%s %s\0" % (mode, name) + bytes.fromhex(object) for mode, name, object in entries]
        return self.put(b"tree", b"".join(parts))

    def identity(self, spoil):
        said = {
            "email": "a@x",
            "name": self.chance.choice(NAMES) if self.chance.random() < 0.8 else odd_text(self.chance, 20),
            "nonce": self.nonce(),
            "times": {},
            "unix_time": self.chance.randrange(10**9),
            "version": 2,
        }
        parents, id = [], None
        for number in range(self.chance.choice([1, 1, 2])):
            shown = dict(said, name=said["name"] + "2" * number)
            if spoil and self.chance.random() < 0.6:
                shown = spoil_version(self.chance, shown)
            text = json.dumps(shown, ensure_ascii=False, separators=(",", ":")).encode()
            id = id or hashlib.sha256(text).hexdigest()
            blob = self.put(b"blob", text)
            parents = [self.commit(self.tree([(b"100644", b"version", blob)]), parents)]
        self.write(f"refs/identities/{id}", parents[0].encode() + self.chance.choice([b"", b"\n"]))
        return id

    def title(self):
        plain = ["t", "Login works", "é", "STRASSE", "Straße", "a" * 41, "語" * 21]
        odd = odd_text(self.chance, self.chance.choice([3, 12, 45]))
        return self.chance.choice(plain) if self.chance.random() < 0.5 else odd

    def labels(self):
        return [self.chance.choice(LABELS) for _ in range(self.chance.randrange(3))]

    def member(self, name, first, comments):
        """What an operation says in the member with this name."""
        chance = self.chance
        makes = {
            "title": self.title,
            "was": lambda: chance.choice(["", "old"]),
            "message": lambda: chance.choice(["", "hi", "a\nb", "é\n", "\n\n"]),
            "files": list,
            "status": lambda: chance.choice([1, 2]),
            "added": self.labels,
            "removed": self.labels,
            "target": lambda: chance.choice(comments + [first, "0" * 64]) if first else "0" * 64,
            "new_metadata": lambda: {chance.choice("abk"): chance.choice(["1", "w"]) for _ in range(2)},
        }
        return makes[name]()

    def op(self, kind, first, comments):
        chance, numbers = self.chance, {name: number for number, name in TYPES.items()}
        said = {
            "type": numbers[kind],
            "timestamp": chance.choice([0, 1, 100, LIMIT, chance.randrange(10**9)]),
            "nonce": self.nonce(),
        }
        if chance.random() < 0.15:
            said["metadata"] = {chance.choice("abk"): chance.choice(["1", "v\n"]) for _ in range(2)}
        for name in HAS[kind]:
            said[name] = self.member(name, first, comments)
        return said

    def text(self, said):
        spaced = self.chance.random() < 0.2
        items = list(said.items())
        self.chance.shuffle(items)
        escaped = self.chance.random() < 0.2
        return json.dumps(dict(items), ensure_ascii=escaped, separators=(", ", " : ") if spaced else (",", ":"))

    def comment(self):
        """The text of an operation that adds a comment."""
        return self.text(self.op("comment", None, []))

    def parents(self, commits):
        parents = [] if not commits else [self.chance.choice(commits[-3:])]
        if len(commits) > 2 and self.chance.random() < 0.3:
            parents = self.chance.sample(commits[-3:], 2)
        return parents

    def kinds(self, commits, parents):
        """The types of the operations of a commit; a merge has none."""
        count = 0 if len(parents) > 1 else self.chance.randrange(0 if commits else 1, 4)
        return ["create"] * (not commits) + [self.chance.choice(list(HAS)[1:]) for _ in range(count)]

    def plan(self, authors, commits, edits, first, comments):
        """What a good commit on top of these holds, before it may be spoiled."""
        parents = self.parents(commits)
        said = [self.op(kind, first, comments) for kind in self.kinds(commits, parents)]
        above = max([edits[it] for it in parents], default=0)
        return {
            "edit": above + self.chance.choice([1, 1, 1, 2, 5, JUMP]),
            "said": said,
            "author": self.chance.choice(authors),
            "parents": parents,
            "version": b"version-4",
            "create": b"create-clock-%d" % self.chance.choice([1, 7, LIMIT]),
            "ops": b"100644",
            "texts": None,
            "pack": None,
            "more": [],
        }

    def entries(self, at, texts, empty, is_root):
        """The tree entries of a commit of a bug."""
        pack = at["pack"] or '{"author":{"id":"%s"},"ops":[%s]}' % (at["author"], ",".join(texts))
        names = [at["create"]] if at["create"] and is_root else []
        names.append(b"edit-clock-%d" % at["edit"] if isinstance(at["edit"], int) else at["edit"])
        entries = [(b"100644", name, empty) for name in names]
        if at["ops"]:
            entries.append((at["ops"], b"ops", self.put(b"blob", pack.encode("utf-8", "surrogateescape"))))
        if at["version"]:
            entries.append((b"100644", at["version"], empty))
        return entries + at["more"]

    def bug(self, authors, spoil):
        """The id and the head of a new bug."""
        empty, commits, edits, first, comments = self.put(b"blob", b""), [], {}, None, []
        for number in range(self.chance.randrange(1, 8)):
            at = self.plan(authors, commits, edits, first, comments)
            if spoil and spoil[0] == number:
                SPOILS[spoil[1]](self.chance, at, self)
            texts = at["texts"] or [self.text(it) for it in at["said"]]
            ids = [hashlib.sha256(it.encode()).hexdigest() for it in texts]
            if first is None:
                first = ids[0] if ids else "0" * 64
            comments += [id for id, it in zip(ids, at["said"]) if it.get("type") in (1, 3)]
            tree = self.tree(self.entries(at, texts, empty, not commits))
            commits.append(self.commit(tree, at["parents"]))
            edits[commits[-1]] = at["edit"] if isinstance(at["edit"], int) else 1
        return first, commits[-1]


def spoil_version(chance, said):
    name = chance.choice(list(said))
    if chance.random() < 0.7:
        return dict(said, **{name: chance.choice(["", "\x01", 3, None, "x", {}])})
    return {key: value for key, value in said.items() if key != name}


VALUES = [
    "", " ", "\x01", 0, 3, 9, -1, 1.5, 2**63, 2**64, None, [], ["x"], [""], {}, {"k": 1}, "0" * 63, "A" * 64, True
]


def spoil_member(chance, at, maker):
    if at["said"]:
        place = chance.randrange(len(at["said"]))
        said = dict(at["said"][place])
        name = chance.choice(list(said))
        if chance.random() < 0.3:
            del said[name]
        else:
            said[name] = chance.choice(VALUES)
        at["said"] = at["said"][:place] + [said] + at["said"][place + 1:]


REWRITES = [
    lambda text: text[:-1],
    lambda text: text + "x",
    lambda text: text[:-1] + ',"type":7}',
    lambda text: text.replace('"type"', '"t\\u0079pe"'),
    lambda text: text.replace("{", "{ ", 1),
    lambda text: text[:-1] + ',"unknown":[1,{"a":null}]}',
    lambda text: text[:-1] + ',"nonce":"AAAA"}',
    lambda text: "null",
    lambda text: f"[{text}]",
    lambda text: text.replace(":", "::", 1),
    lambda text: text.replace('"type":', '"type":0'),
    lambda text: text[:-1] + ',"x":"\\ud800"}',
    lambda text: text[:-1] + ',"\\ud800":1}',
]


def spoil_text(chance, at, maker):
    texts = [maker.text(it) for it in at["said"]]
    if texts:
        place = chance.randrange(len(texts))
        texts[place] = chance.choice(REWRITES)(texts[place])
    at["texts"] = texts


def other_packs(id, ops):
    """Packs that say the same in another way, or break a rule."""
    author = '"author":{"id":"%s"}' % id
    return [
        '{"ops":[%s]}' % ops,
        "{%s}" % author,
        '{%s,"ops":null}' % author,
        '{%s,"ops":[%s],"ops":[]}' % (author, ops),
        '{%s,%s,"ops":[%s]}' % (author, author, ops),
        '{"author":{"id":"%s"},"ops":[%s]}' % ("f" * 64, ops),
        ' {"x":1, "ops" : [ %s ] ,%s} \n' % (ops, author),
        '{"author":{"id":"%s","id":"%s"},"ops":[%s]}' % (id, id, ops),
        "[%s]" % ops,
        '{%s,"ops":{}}' % author,
        '{%s,"ops":[%s]}\udcff' % (author, ops),
        '{"author":{"name":"x","id":"%s"},"ops":[%s],"deep":%s%s}' % (id, ops, "[" * 99, "]" * 99),
        '{"author":{"id":"%s"},"ops":[%s],"deep":%s%s}' % (id, ops, "[" * 100, "]" * 100),
        "",
    ]


def spoil_pack(chance, at, maker):
    ops = ",".join(maker.text(it) for it in at["said"])
    at["pack"] = chance.choice(other_packs(at["author"], ops))


CLOCKS = [
    1,
    2,
    LIMIT,
    b"edit-clock-0",
    b"edit-clock-01",
    b"edit-clock-9223372036854775808",
    b"edit-clock-",
    b"edit-clock-x",
    b"edit",
    JUMP + 2,
    10 * JUMP,
]


def spoil_clock(chance, at, maker):
    at["edit"] = chance.choice(CLOCKS)


def spoil_tree(chance, at, maker):
    empty = maker.put(b"blob", b"")
    changes = [
        {"version": None},
        {"version": b"version-5"},
        {"more": [(b"100644", b"version-5", empty)]},
        {"ops": None},
        {"ops": b"120000"},
        {"ops": b"100755"},
        {"ops": b"40000"},
        {"more": [(b"100644", b"edit-clock-77", empty)]},
        {"create": None},
        {"create": b"create-clock-0"},
        {"more": [(b"100644", b"create-clock-3", empty)]},
        {"more": [(b"40000", b"other", empty), (b"160000", b"module", "1" * 40)]},
        {"more": [(b"100644", b"ops", empty)]},
    ]
    at.update(chance.choice(changes))


def spoil_graph(chance, at, maker):
    changes = [
        lambda: {"parents": []},
        lambda: {"parents": at["parents"] * 2},
        lambda: {"parents": at["parents"] + ["1" * 40]},
        lambda: {"parents": maker.made[-1:]},
        lambda: {"said": at["said"] + [maker.op("create", None, [])]},
        lambda: {"said": at["said"] + at["said"][-1:]},
        lambda: {"said": []},
        lambda: {"said": [maker.op("nothing", None, [])] + at["said"]},
        lambda: {"author": "e" * 64},
    ]
    at.update(chance.choice(changes)())


SPOILS = [spoil_member, spoil_member, spoil_text, spoil_pack, spoil_clock, spoil_tree, spoil_graph]


def spoil_files(chance, path):
    files = [f"{at}/{name}" for at, _, names in os.walk(path) if "/cache/" not in at for name in names]
    file = chance.choice(files)
    with open(file, "rb") as it:
        text = it.read()
    kind = chance.randrange(5)
    if kind == 0:
        os.remove(file)
        return
    at = chance.randrange(len(text) + 1)
    byte = bytes([chance.randrange(256)])
    texts = [None, text[:at], text + b"\n", text[:at] + byte + text[at + 1:], text.upper()]
    if file.endswith("/packed-refs") and packed_refs(texts[kind]) is None:
        return
    with open(file, "wb") as it:
        it.write(texts[kind])


def make(path, chance):
    maker = Maker(path, chance)
    authors = [maker.identity(chance.random() < 0.05) for _ in range(chance.randrange(1, 4))]
    spoil = (chance.randrange(4), chance.randrange(len(SPOILS))) if chance.random() < 0.6 else None
    id, head = maker.bug(authors, spoil)
    maker.write(f"refs/bugs/{id}", head.encode() + chance.choice([b"", b"\n"]))
    if chance.random() < 0.9:
        maker.write("git-bug/user", chance.choice(authors).encode() + chance.choice([b"", b"\n"]))
    if chance.random() < 0.5:
        clocks = [b"0", b"3", b"12\n", b"x", b"%d" % 2**62, b"%d" % 2**63, b"", b"99999"]
        maker.write("git-bug/clocks/bugs-edit", chance.choice(clocks))
    if chance.random() < 0.25:
        spoil_files(chance, path)
    return id


def spoil_chain(chance, path):
    """Puts another commit over the head of an identity: a merge, one without a version, or none that stands."""
    maker, folder = Maker(path, chance), Folder(path)
    ids = folder.ids("identities")
    id = chance.choice(ids) if ids else None
    head = id and folder.head("identities", id)
    commit = head and folder.object(head, b"commit")
    if not commit:
        return
    tree, parents = read_commit(commit)
    kind = chance.randrange(5)
    heads = {
        0: lambda: maker.commit(tree, [head, head]),
        1: lambda: maker.commit(maker.tree([]), [head]),
        2: lambda: maker.commit(tree, [hashlib.sha1(head.encode()).hexdigest()]),
        3: lambda: maker.commit(tree, [head]),
        4: lambda: parents[0] if parents else tree,
    }
    maker.write(f"refs/identities/{id}", heads[kind]().encode() + b"\n")


def makings(chance, folder, id):
    """The words of a command that makes a bug or a person, or sets the user."""
    known = folder.ids("identities")
    ids = known + [it[: chance.randrange(1, 5)] for it in known] + [id, "0" * 64, "", id.upper()]
    odd = odd_text(chance, 20)
    return chance.choice(
        [
            ["new", chance.choice(WORDS[:5] + [" ", "tab\t", odd]), chance.choice(["", "hi", "a\nb\r\n", "\x01", "é" * 300])],
            ["user-new", chance.choice(["Ana", "Zoë Q", " ", "", "a\nb", 'q"\\', odd]), chance.choice(["", "a@x", "é", "a\tb"])],
            ["user-edit", chance.choice(["Ana", "é", "", "\x7f"]), chance.choice(["", "b@x", "\x85"])],
            ["user-edit", "Bo", "b@y"],
            ["user-set", chance.choice(ids)],
        ]
    )


def make_peer(chance, growing, root):
    """Makes `p`, which began as `f` did and went on, and tracking refs in `f` of what was fetched from it once."""
    shutil.copytree(f"{root}/f", f"{root}/p")
    if chance.random() < 0.7:
        make(f"{root}/p", chance)
    for path in (f"{root}/p", f"{root}/f"):
        if chance.random() < 0.4:
            go_on(chance, path)
        if chance.random() < 0.25:
            spoil_files(chance, path)
    for side in ("identities", "bugs"):
        for id in Folder(f"{root}/p").ids(side):
            if chance.random() < 0.3:
                track(chance, root, side, id)
    part(growing, root)


def part(chance, root):
    """Lets both folders go on with a bug, each by itself. Sometimes both add the same operation."""
    same = Maker(root, chance).comment() if chance.random() < 0.2 else None
    for path in (f"{root}/p", f"{root}/f"):
        for _ in range(chance.choice([0, 1, 1, 2])):
            grow(chance, path, same)


def grow(chance, path, same):
    """Puts a commit over the head of a bug, or over one below it: a good one, or one with a fault."""
    maker, folder = Maker(path, chance), Folder(path)
    heads = [(id, folder.head("bugs", id)) for id in folder.ids("bugs")]
    known = [(id, packs) for id, packs in ((id, head and entity(folder, id, head)) for id, head in heads) if packs]
    if not known:
        return
    id, packs = chance.choice(known)
    name, pack = chance.choice([packs[-1], packs[-1], chance.choice(packs)])
    at = {
        "edit": pack["edit"] + chance.choice([1, 1, 2, JUMP]),
        "author": chance.choice(folder.ids("identities")),
        "parents": [name],
        "version": b"version-4",
        "create": None,
        "ops": b"100644",
        "pack": None,
        "more": [],
    }
    if chance.random() < 0.3:
        at.update(chance.choice(faults(name, pack["edit"])))
    entries = maker.entries(at, [same or maker.comment()], maker.put(b"blob", b""), not at["parents"])
    maker.write(f"refs/bugs/{id}", maker.commit(maker.tree(entries), at["parents"]).encode() + b"\n")


def faults(name, edit):
    """What is wrong with a commit over this one, which has this clock: its clock, parents, author or version."""
    return [
        {"edit": edit},
        {"edit": max(edit - 1, 1)},
        {"edit": edit + JUMP + 1},
        {"edit": LIMIT},
        {"parents": []},
        {"parents": [], "create": b"create-clock-1"},
        {"parents": [name, name]},
        {"parents": [name, "1" * 40]},
        {"author": "e" * 64},
        {"version": b"version-3"},
    ]


def go_on(chance, path):
    """Puts a commit over a head: of a bug, or of an identity."""
    maker, folder = Maker(path, chance), Folder(path)
    side = chance.choice(["bugs", "identities"])
    ids = [id for id in folder.ids(side) if folder.head(side, id)]
    id = chance.choice(ids) if ids else None
    commit = id and folder.object(folder.head(side, id), b"commit")
    if commit:
        head = maker.commit(read_commit(commit)[0], [folder.head(side, id)])
        maker.write(f"refs/{side}/{id}", head.encode() + b"\n")


def track(chance, root, side, id):
    folder, ref = Folder(f"{root}/p"), f"refs/{side}/{id}"
    text = folder.files.get(ref) or folder.packed[ref].encode()
    Maker(f"{root}/f", chance).write(f"refs/remotes/o/{side}/{id}", chance.choice([text, text, text, b"0" * 40, b"x"]))


def pack_some(chance, path):
    """Moves some refs into the packed refs, as another program may, among lines that count for nothing."""
    folder, lines = Folder(path), [b"# pack-refs with: peeled fully-peeled sorted ", b"0" * 40 + b" refs/bugs/x"]
    lines += [f"{head} {ref}".encode("latin-1") for ref, head in folder.packed.items()]
    for ref in folder.files:
        text = without_line_end(folder.files[ref])
        if not re.fullmatch(r"refs/(bugs|identities|remotes/o/(bugs|identities))/[0-9a-f]{64}", ref) or not HEX.fullmatch(text):
            continue
        kind = chance.randrange(8)
        if kind < 2:
            lines.append(b"0" * 40 + b" " + ref.encode())
        if kind < 6:
            lines += [text + b" " + ref.encode()] + [b"^" + text] * (kind == 5)
            os.remove(f"{path}/{ref}")
        if kind == 6:
            lines.append(b"0" * 40 + b" " + ref.encode())
    Maker(path, chance).write("packed-refs", b"\n".join(lines) + chance.choice([b"", b"\n"]))


NOT_PACKED = [b"x", b"\n", b"0" * 40, b"0" * 40 + b" ", b"0" * 39 + b"A refs/x", b"^" + b"0" * 39, b"#\n\n", b"^" + b"0" * 40 + b" x"]


def edits(chance, id):
    labels = lambda: [chance.choice(LABELS + ["", "new"]) for _ in range(chance.randrange(1, 4))]
    return chance.choice(
        [
            ["comment", id, chance.choice(["hi", "", "a\nb", "\x01"])],
            ["title", id, chance.choice(WORDS[:5] + [" ", "tab\t", odd_text(chance, 30)])],
            ["close", id],
            ["open", id],
            ["label-add", id] + labels(),
            ["label-rm", id] + labels(),
            ["meta", id, chance.choice(["k", "a", ""]), chance.choice(["v", 'q"\\', "\x02", "a\nb"])],
            ["noop", id],
            ["close", id],
            ["open", id],
        ]
    )


def comment_edit(chance, folder, id):
    """The words of an edit of a comment: mostly one of a bug, by all of its digits or some."""
    head = folder.head("bugs", id) if id in folder.ids("bugs") else None
    packs = (entity(folder, id, head) if head else None) or []
    known = [combined(id, op["id"]) for op, _ in bug_comments([op for _, pack in packs for op in pack["ops"]])]
    word = chance.choice(known * 3 + [combined(id, "0" * 64), "", "0", id])
    word = word[: chance.choice([1, 2, 3, 5, 7, 10, 16] + [64] * 5)] + chance.choice([""] * 10 + ["0", "G"])
    return ["edit", word, chance.choice(["hi", "", "a\nb", "ho", "\x01"])]


def dashed(chance, words):
    """A command as it may be given: `--` is among its arguments, or one begins with `-`, or both, or neither."""
    name, rest = words[0], list(words[1:])
    at, kind = chance.randrange(len(rest) + 1), chance.randrange(20)
    if kind in (0, 1) and at < len(rest):
        rest[at] = "-" + rest[at]
    if kind in (1, 2):
        rest.insert(at, "--")
    return [name] + rest


def add_neighbour(path, id, chance):
    """Adds a ref of a bug whose id begins as this one does."""
    if not os.path.exists(f"{path}/refs/bugs/{id}"):
        return
    shared = chance.choice([1, 6, 7, 63])
    other = id[:shared] + chance.choice(sorted(set("0123456789abcdef") - {id[shared]})) + id[shared + 1 :]
    with open(f"{path}/refs/bugs/{id}", "rb") as ref:
        Maker(path, chance).write(f"refs/bugs/{other}", ref.read())
