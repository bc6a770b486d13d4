"""What is in a folder: objects, persons, bugs, refs, and what is wrong with them."""
import functools
import hashlib
import os
import pathlib
import re
import stat


TOP = pathlib.Path(__file__).resolve().parent.parent.parent
WAIT = 20
LOCK_WAIT = 30
NEW = ["f", "user-new", "Ana", "ana@x"]
EDIT = ["f", "user-edit", "Ana B", "b@x"]

# The calls in which a kill or an error can tell; reading the clock or asking for memory is not among them.
CALLS = (
    "open openat stat statx newfstatat lstat mkdir rename unlink rmdir read write pread64 fsync fdatasync flock"
    " getdents64 close fchmod chmod getrandom"
).split()

# Another run makes a few calls more or fewer, by the names of its objects. So many past the last one are tried too.
LATE = 3

# What a trace for the disk's model has.
MARKS = ["-y", "-xx", "-s", "100000", "-e", "trace=openat,mkdir,rename,unlink,rmdir,write,fsync,getrandom"]

# The path of a ref, local or of a remote.
REF = re.compile("refs/(?:remotes/[^/]+/)?(?:identities|bugs)/[0-9a-f]{64}")

# The same random bytes in each run, so that a run meets the objects of the one before, if the clock tells the same second.
SAME = "inject=getrandom:poke_exit=@arg1=" + "01" * 32


class Unsound(Exception):
    pass


# What a folder holds


def object_at(files, name):
    text = files.get(f"objects/{name[:2]}/{name[2:]}")
    if text is None or hashlib.sha1(text).hexdigest() != name:
        raise Unsound(f"object {name} is missing or damaged")
    return text.split(b"\0", 1)[1]


def chain_of(files, head):
    """The objects below a head, each commit with its tree and version, the newest first; and the first version's text."""
    names, version = [], None
    while head:
        commit = object_at(files, head).decode()
        tree = re.match("tree ([0-9a-f]{40})\n", commit).group(1)
        entry = object_at(files, tree)
        blob = entry.split(b"version\0", 1)[1][:20].hex()
        version = object_at(files, blob)
        names += [head, tree, blob]
        parent = re.search("^parent ([0-9a-f]{40})$", commit, re.MULTILINE)
        head = parent.group(1) if parent else None
    return names, version


def objects_below(files, head):
    """The names of all objects that a commit leads to, and its own."""
    names, left = set(), [head]
    while left:
        name = left.pop()
        if name not in names:
            names.add(name)
            own, next_ones = names_in(files.get(f"objects/{name[:2]}/{name[2:]}", b""))
            if own != name:
                raise Unsound(f"object {name} is missing or damaged")
            left += next_ones
    return names


def named_below(files, commit):
    """What the text of a commit names, with all below its tree. What its parents name is named by them."""
    left, names = list(names_in(commit)[1]), []
    while left:
        name = left.pop()
        names.append(name)
        text = files.get(f"objects/{name[:2]}/{name[2:]}", b"")
        if text.startswith(b"tree"):
            left += names_in(text)[1]
    return names


@functools.lru_cache(maxsize=None)
def names_in(text):
    """The name of an object, and the names of those that it names, by the text of its file."""
    content = text.partition(b"\0")[2]
    found = []
    if text.startswith(b"commit"):
        found = re.findall("^(?:tree|parent) ([0-9a-f]{40})$", content.decode(), re.MULTILINE)
    elif text.startswith(b"tree"):
        found = [name.hex() for name in re.findall(rb"[0-7]+ [^\0]+\0(.{20})", content, re.DOTALL)]
    return hashlib.sha1(text).hexdigest(), found


def persons_in(files):
    """The number of versions of each identity in a sound folder."""
    persons = {}
    for path, text in files.items():
        if re.fullmatch("refs/identities/[0-9a-f]{64}", path):
            if not re.fullmatch(b"[0-9a-f]{40}\n", text):
                raise Unsound(f"{path} is no ref")
            names, version = chain_of(files, text.decode().strip())
            if hashlib.sha256(version).hexdigest() != path.split("/")[2]:
                raise Unsound(f"{path} holds the head of another identity")
            persons[path.split("/")[2]] = len(names) // 3
    user = files.get("git-bug/user")
    if user is not None and user.decode().strip() not in persons:
        raise Unsound("the user is no local identity")
    return persons


def bugs_in(files):
    """The number of commits of each bug in a sound folder, each with one parent at most."""
    bugs = {}
    for path, text in files.items():
        if re.fullmatch("refs/bugs/[0-9a-f]{64}", path):
            head, count = text.decode().strip(), 0
            while head:
                commit = object_at(files, head).decode()
                tree = object_at(files, re.match("tree ([0-9a-f]{40})\n", commit).group(1))
                for blob in re.findall(rb"100644 [^\0]+\0(.{20})", tree, re.DOTALL):
                    object_at(files, blob.hex())
                parent = re.search("^parent ([0-9a-f]{40})$", commit, re.MULTILINE)
                head, count = parent and parent.group(1), count + 1
            bugs[path.split("/")[2]] = count
    return bugs


def heads_in(files):
    """The head of each ref of a folder, local ones and those of remotes, each with all that it leads to held."""
    heads = {path: text.decode(errors="replace").strip() for path, text in files.items() if REF.fullmatch(path)}
    for head in heads.values():
        objects_below(files, head)
    return heads


def refs_in(files):
    """The head of each ref of a folder: that of its file, or of the last packed line with its path."""
    lines = [line.split(" ") for line in files.get("packed-refs", b"").decode().splitlines()]
    return {**{path: head for head, path in lines}, **{path: text.decode().strip() for path, text in files.items() if REF.fullmatch(path)}}


def standing_in(folder):
    """All that stands in a folder, by its path: its mode, and what it holds. No pipe is opened."""
    found = {}
    for path in [folder, *folder.rglob("*")]:
        if path.is_symlink() or path.exists():
            mode = path.lstat().st_mode
            held = os.readlink(path) if stat.S_ISLNK(mode) else path.read_bytes() if stat.S_ISREG(mode) else b""
            found[str(path.relative_to(folder))] = (mode, held)
    return found


def files_in(folder):
    """The plain files below a folder, without those that a killed run left."""
    found = {}
    for path in folder.rglob("*"):
        if not path.name.startswith(".gitbug-") and not path.is_symlink() and path.is_file():
            found[str(path.relative_to(folder))] = path.read_bytes()
    return found


def temporaries_in(folder):
    return [path for path in folder.rglob(".gitbug-*")]
