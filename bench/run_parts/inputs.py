"""The folders that are measured, made by hand: chains, persons, copied and shown bugs."""
import base64
import collections
import hashlib
import itertools
import json
import os
import pathlib
import shutil
import subprocess
import zlib


BENCH = pathlib.Path(__file__).resolve().parent.parent
TOP = BENCH.parent
ROUNDS = 5
SHORT, LONG = 3_333, 65_536
WHO = "A <a@example.com> 1700000000 +0000"

# How often the program for JSON goes over the operations of the short chain.
JSON_ROUNDS = 200

# The operations of the bug that is folded, and how often it is.
FOLDED, FOLD_ROUNDS = 10_000, 20

# The chains of versions of a person: how many commits they have, and the bytes of each of the versions that these take in turn.
PERSONS = {
    "200 versions of 20 kB, each its own commit's": (200, [20_000] * 200),
    "one version of 4 MB, of 50 commits": (50, [4_000_000]),
    "two versions of 2 MB, in turn, of 50 commits": (50, [2_000_000] * 2),
    "two versions of 2 MB, in turn, of 2,000 commits": (2_000, [2_000_000] * 2),
    "two versions of 200 bytes, in turn, of 2,000 commits": (2_000, [200] * 2),
}

# The commits of the bug that gets a comment.
COMMENTED = 100

# The comments of the bugs that are shown; the goal is of the first.
SHOWN = (100, 10_000)

# How many bugs are copied in memory, each of four commits, and what git's command copies them.
COPIED = (100, 1_000)
FETCH = ["git", "--git-dir=t", "fetch", "-q", "./g", "refs/bugs/*:refs/bugs/*"]

# How many bugs are listed and exchanged, each of how many commits, and how many of them get one more. Then bugs of more commits, of which nothing is new.
EXCHANGED, EACH, CHANGED, LONGER = 1_000, 4, 10, 16

# How many bugs are merged, each with a comment more on either side.
MERGED = 200
PACKED = 10_000

# What merges two heads of a bug with git's own commands: the heads, the tree of the merge and the ref are its arguments.
MERGING = """set -e
export GIT_AUTHOR_NAME=a GIT_AUTHOR_EMAIL=a GIT_COMMITTER_NAME=a GIT_COMMITTER_EMAIL=a
merge() {
    git --git-dir=mg merge-base $1 $2 > /dev/null
    head=$(git --git-dir=mg commit-tree $3 -p $1 -p $2 < /dev/null)
    git --git-dir=mg update-ref $4 $head $1
}
"""

# What lists the commits of a bug by git's own commands, and reads the objects that `show` reads.
READING = "git --git-dir=g rev-list refs/heads/main && git --git-dir=g cat-file --batch < names"

# What lists as many refs as there are bugs by git's own command, and what reads the objects that a list without rows reads.
LISTING = "git --git-dir=g for-each-ref"
LISTING_ALL = f"{LISTING} && git --git-dir=g cat-file --batch < names"

# What makes with git's own commands as many objects and refs as `new` and `comment` do: the text of a pack is on its input.
PLUMBING = """set -e
pack=$(git --git-dir=g hash-object -w --stdin)
empty=$(git --git-dir=g hash-object -w --stdin < /dev/null)
tree=$(printf '100644 blob %s\\t%s\\n' $empty edit-clock-101 $pack ops $empty version-4 | git --git-dir=g mktree)
head=$(git --git-dir=g commit-tree $tree $PARENT < /dev/null)
git --git-dir=g update-ref $REF $head
"""

# The calls over which it is measured what the launcher adds.
CALLS = 200

# A tmpfs takes a page of memory and an inode for each file: about 480,000 of them.
ROOM = 3 << 30
Row = collections.namedtuple("Row", "label command objects expected")
Chain = collections.namedtuple("Chain", "commits folder rows paths")
Cost = collections.namedtuple("Cost", "wall processor memory")
Calls = collections.namedtuple("Calls", "opens reads all")


def object_text(kind, content):
    return b"%s %d\0" % (kind, len(content)) + content


def object_path(name):
    return f"objects/{name[:2]}/{name[2:]}"


def lines(names):
    return "".join(f"{name}\n" for name in names).encode()


class Folders:
    """The same objects twice: uncompressed in `f`, and as a bare Git repository in `g`."""

    def __init__(self, folder):
        self.plain, self.git = folder / "f", folder / "g"
        if shutil.which("git"):
            run(["git", "init", "-q", "--bare", str(self.git)])
        for objects in (self.plain / "objects", self.git / "objects"):
            for fan in range(256):
                (objects / f"{fan:02x}").mkdir(parents=True, exist_ok=True)
        for side in ("bugs", "identities"):
            (self.plain / "refs" / side).mkdir(parents=True)
        (self.git / "refs/heads").mkdir(parents=True, exist_ok=True)

    def put(self, kind, content):
        text = object_text(kind, content)
        name = hashlib.sha1(text).hexdigest()
        place = object_path(name)
        (self.plain / place).write_bytes(text)
        (self.git / place).write_bytes(zlib.compress(text, 1))
        return name

    def put_refs(self, bug, head, author, person):
        """The refs of a bug and of its author. For `log` the author's only has to stand: what it names is not looked at."""
        (self.plain / "refs/bugs" / bug).write_text(head + "\n")
        (self.plain / "refs/identities" / author).write_text(person + "\n")
        (self.git / "refs/heads/main").write_text(head + "\n")
        (self.git / "HEAD").write_text("ref: refs/heads/main\n")


def tree_content(entries):
    return b"".join(b"100644 %s\0" % name + bytes.fromhex(blob) for name, blob in sorted(entries))


def commit_content(tree, parent):
    parents = f"parent {parent}\n" if parent else ""
    return f"tree {tree}\n{parents}author {WHO}\ncommitter {WHO}\n\n".encode()


PROSE = """After the update the list of labels comes back empty whenever two people edit the same bug in one minute. To see it
take two clones, add a label in each, and merge. I would expect both labels; what I get is the one that was added last, and
the other is gone from the list but not from the log. This is on Linux with a fresh folder, and it was right a month ago. """


def prose(start, size):
    """So many bytes of plain text, from another place for each operation."""
    text = " ".join(PROSE.split()) + " "
    begin = start * 37 % len(text)
    return "".join(itertools.islice(itertools.cycle(text), begin, begin + size))


def time_of(number):
    return 1_700_000_000 + 60 * number


def text_of(number, members):
    """The operation of this number with these members beside those that each has."""
    nonce = base64.b64encode(hashlib.sha256(b"%d" % number).digest()[:20]).decode()
    members = {"nonce": nonce, "timestamp": time_of(number), **members}
    return json.dumps(members, separators=(",", ":"), sort_keys=True).encode()


def message(number):
    """What the operation that creates says, or a comment."""
    return prose(number, 440 if number == 1 else 105)


def comment_text(number):
    """The operation that creates a bug, or a comment."""
    if number == 1:
        return text_of(number, {"type": 1, "title": prose(number, 60), "message": message(number), "files": None})
    return text_of(number, {"type": 3, "message": message(number), "files": None})


def operation_text(number):
    """An operation as a tracker has it: one that creates, then comments, labels and changes of the status."""
    if number % 8 == 5:
        return text_of(number, {"type": 5, "added": ["needs review", "linux"], "removed": ["new"]})
    if number % 8 == 0:
        return text_of(number, {"type": 4, "status": 1 + number // 8 % 2})
    return comment_text(number)


def put_bug(folders, commits, author, text):
    """A bug of an operation a commit: its id, its commits from the first, and the trees and packs of these."""
    empty = folders.put(b"blob", b"")
    names, below, parent = [], [], None
    for number in range(1, commits + 1):
        pack = folders.put(b"blob", b'{"author":{"id":"%s"},"ops":[%s]}' % (author.encode(), text(number)))
        entries = [(b"edit-clock-%d" % number, empty), (b"ops", pack), (b"version-4", empty)]
        if parent is None:
            entries.append((b"create-clock-1", empty))
        tree = folders.put(b"tree", tree_content(entries))
        below += [tree, pack]
        parent = folders.put(b"commit", commit_content(tree, parent))
        names.append(parent)
    return hashlib.sha256(text(1)).hexdigest(), names, below


def make_chain(commits, folder, tools):
    """A bug of so many commits, and the rows that go over it."""
    folders = Folders(folder)
    author = hashlib.sha256(b"%d" % commits).hexdigest()
    bug, names, below = put_bug(folders, commits, author, operation_text)
    folders.put_refs(bug, names[-1], author, names[-1])
    read = [*reversed(names), *below]
    paths = [f"f/{object_path(name)}" for name in read]
    (folder / "sums").write_text("".join(f"{name}  {path}\n" for name, path in zip(read, paths)))
    log = "".join(f"{number} {name}\n" for number, name in enumerate(names, 1)).encode()
    names_log = lines(reversed(names))
    rows = [
        Row("gitbug log", [tools["gitbug"], "f", "log", bug], 3 * commits, log),
        Row("git fsck", ["git", "--git-dir=g", "fsck"], 3 * commits + 1, b""),
        Row("git log", ["git", "--git-dir=g", "log", "--format=%H"], commits, names_log),
        Row("sha1sum -c", ["sha1sum", "-c", "--quiet", "sums"], 3 * commits, b""),
    ]
    if tools["floor"]:
        rows.append(Row("floor", [tools["floor"], "f", bug], 3 * commits, log))
    return Chain(commits, folder, {row.label: row for row in rows if shutil.which(row.command[0])}, paths)


def version_text(number, size):
    """A version of so many bytes: most of it is a member that is passed over."""
    nonce = base64.b64encode(hashlib.sha256(b"%d" % number).digest()[:20]).decode()
    members = {"version": 2, "unix_time": number, "nonce": nonce, "name": "Ana", "email": "ana@x", "more": ""}
    members["more"] = prose(number, size - len(json.dumps(members, separators=(",", ":"))))
    return json.dumps(members, separators=(",", ":")).encode()


def put_person(folders, commits, sizes):
    """A person whose commits take versions of these sizes in turn: the id, and all objects, the head last."""
    texts = [version_text(number, size) for number, size in enumerate(sizes)]
    versions = [folders.put(b"blob", text) for text in texts]
    trees = [folders.put(b"tree", tree_content([(b"version", version)])) for version in versions]
    names, parent = [*versions, *trees], None
    for number in range(commits):
        parent = folders.put(b"commit", commit_content(trees[number % len(trees)], parent))
        names.append(parent)
    return hashlib.sha256(texts[0]).hexdigest(), names


def make_person(folder, commits, sizes):
    """The user, whose commits take these versions in turn: the ref's file, its head, and the bytes of the folder."""
    folders = Folders(folder)
    person, names = put_person(folders, commits, sizes)
    (folders.plain / "refs/identities").mkdir(parents=True, exist_ok=True)
    (folders.plain / "git-bug").mkdir()
    (folders.plain / "git-bug/user").write_text(person + "\n")
    files = (folders.plain / "objects").rglob("*")
    size = sum(file.stat().st_size for file in files if file.is_file())
    return folders.plain / "refs/identities" / person, names[-1], size


def copied_text(bug, number):
    """The operation of a commit of a bug that is copied: one that creates, two comments and a change of labels."""
    place = 8 * bug + 3
    if number == 1:
        members = {"type": 1, "title": prose(place, 60), "message": prose(place, 440), "files": None}
        return text_of(place, members)
    return operation_text(place + number - 2)


def make_copied(bugs, folder):
    """A repository of so many bugs with a ref for each, as many objects as `speed` makes in memory."""
    folders = Folders(folder)
    author = hashlib.sha256(b"%d" % bugs).hexdigest()
    refs = folders.git / "refs/bugs"
    refs.mkdir(parents=True)
    for bug in range(bugs):
        number, names, _ = put_bug(folders, 4, author, lambda number: copied_text(bug, number))
        (refs / number).write_text(names[-1] + "\n")


def combined_id(bug, operation):
    """A comment's id: 14 digits of its operation's id among 50 of its bug's."""
    digits, others = iter(bug), iter(operation)
    among = {1, 3, 5, *range(9, 64, 5)}
    return "".join(next(others if place in among else digits) for place in range(64))


def shown_text(bug, comments):
    """What `show` prints of a bug of so many comments, all by Ana."""
    told = [f"bug {bug}", f"title {prose(1, 60)}", "status open", "author Ana", f"created 1 {time_of(1)}"]
    told += [f"edited {comments} {time_of(comments)}", "actor Ana", "participant Ana"]
    for number in range(1, comments + 1):
        operation = hashlib.sha256(comment_text(number)).hexdigest()
        told += [f"comment {combined_id(bug, operation)} Ana {time_of(number)}", f"    {message(number)}"]
    return lines(told)


def batch_text(folder, name):
    """What `git cat-file --batch` prints of an object."""
    head, content = (folder / "f" / object_path(name)).read_bytes().split(b"\0", 1)
    return b"%s %s\n%s\n" % (name.encode(), head, content)


def make_shown(comments, folder, program):
    """A bug of so many comments by a person of one version, and the rows that read it."""
    folders = Folders(folder)
    author, person = put_person(folders, 1, [200])
    bug, names, below = put_bug(folders, comments, author, comment_text)
    folders.put_refs(bug, names[-1], author, person[-1])
    read = [*reversed(names), *below, *person]
    (folder / "names").write_bytes(lines(read))
    listed = lines(reversed(names)) + b"".join(batch_text(folder, name) for name in read)
    rows = [
        Row("gitbug", [program, "f", "show", bug], len(read), shown_text(bug, comments)),
        Row("git", ["sh", "-c", READING], len(read), listed),
    ]
    return Chain(comments, folder, {row.label: row for row in rows}, [])


def environment():
    """What git reads of a user's settings is left out."""
    return {**os.environ, "GIT_CONFIG_NOSYSTEM": "1", "GIT_CONFIG_GLOBAL": os.devnull, "LC_ALL": "C"}


def run(command, folder=None, **options):
    return subprocess.run(command, cwd=folder, env=environment(), check=True, text=True, **options)


def make_changed(folder, person):
    """Both once more, as `f2` and `g2`, where some bugs have a commit more."""
    for name in "fg":
        shutil.copytree(folder / name, folder / f"{name}2")
    later = Folders.__new__(Folders)
    later.plain, later.git = folder / "f2", folder / "g2"
    for bug in range(CHANGED):
        number, names, _ = put_bug(later, EACH + 1, person, lambda number: exchanged_text(bug, number))
        put_exchanged(later, "bugs", number, names[-1])


def exchanged_text(bug, number):
    """The operation of a commit of such a bug: the first four are those of a bug that is copied, and then come comments."""
    return copied_text(bug, number) if number <= 4 else comment_text(64 * bug + number)


def put_exchanged(folders, side, number, head):
    for place in (folders.plain, folders.git):
        path = place / "refs" / side / number
        path.parent.mkdir(parents=True, exist_ok=True)
        path.write_text(head + "\n")
