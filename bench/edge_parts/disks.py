"""A model of a disk, and power cuts."""
import os
import pathlib
import re

from edge_parts.folders import EDIT, MARKS, NEW, REF, SAME, Unsound, named_below, objects_below
from edge_parts.rooms import Room, counts_of, moments_in, moments_of, seed_call, with_person


def decoded(text):
    return re.sub(r"\\x([0-9a-f]{2})", lambda digits: chr(int(digits.group(1), 16)), text)


class Disk:
    """What a disk that keeps no order is sure to hold after a power cut: an entry of a folder once the folder was synced
    after it, the bytes of a file once the file was."""

    def __init__(self, top):
        self.top = str(top)
        self.entries, self.sure_entry, self.stands, self.bytes, self.sure_bytes = {}, {}, set(), {}, {}
        self.older = {}

    def hold(self, folder):
        """What stands in a folder, and the folder, reached the disk long ago."""
        whole = pathlib.Path(self.path(folder))
        for path in sorted([whole, *whole.rglob("*")] if whole.exists() else []):
            self.put(str(path), "folder" if path.is_dir() else self.new_file())
            self.sure_entry[str(path)] = True
            self.stands.add(str(path))
            if not path.is_dir():
                self.bytes[self.entries[str(path)]], self.sure_bytes[self.entries[str(path)]] = path.read_bytes(), True

    def apply(self, line):
        call = re.match(r"\d+ +(\w+)\((.*)\) += +(-?\d+)(.*)", line)
        if not call or call.group(3).startswith("-"):
            return False
        name, given, result = call.group(1), decoded(call.group(2)), decoded(call.group(4))
        paths = re.findall(r'"((?:[^"])*)"', given)
        if name == "openat" and "O_CREAT" in given:
            self.put(self.path(paths[0]), self.new_file())
        elif name == "mkdir":
            self.put(self.path(paths[0]), "folder")
        elif name == "rename":
            old, new = map(self.path, paths[:2])
            self.put(new, self.entries.pop(old))
        elif name in ("unlink", "rmdir"):
            self.entries.pop(self.path(paths[0]), None)
            self.stands.discard(self.path(paths[0]))
        elif name == "write" and "<" in given:
            file = self.entries.get(self.of_fd(given))
            if file not in (None, "folder"):
                self.bytes[file] += given.split('"', 1)[1].rsplit('"', 1)[0].encode("latin-1")
                self.sure_bytes[file] = False
        elif name == "fsync":
            self.sync(self.of_fd(given))
        else:
            return False
        return True

    def path(self, path):
        return os.path.normpath(os.path.join(self.top, path))

    def of_fd(self, given):
        return os.path.normpath(re.match(r"\d+<([^>]*)>", given).group(1))

    def new_file(self):
        file = len(self.bytes)
        self.bytes[file], self.sure_bytes[file] = b"", False
        return file

    def put(self, path, what):
        if self.sure_entry.get(path) and path in self.entries:
            self.older[path] = self.entries[path]
        self.entries[path], self.sure_entry[path] = what, False

    def sync(self, path):
        if path == self.top or self.entries.get(path, "folder") == "folder":
            for entry in self.entries:
                if os.path.dirname(entry) == path:
                    self.sure_entry[entry] = True
                    self.stands.add(entry)
                    self.older.pop(entry, None)
        else:
            self.sure_bytes[self.entries[path]] = True

    def files(self, folder):
        """The files below a folder as they stand in memory."""
        front = self.path(folder) + "/"
        return {
            path[len(front) :]: self.bytes[what]
            for path, what in self.entries.items()
            if what != "folder" and path.startswith(front)
        }

    def unsure(self, folder, path, besides="", any_file=False):
        """Whether a cut may take a file, where what it shares with another path stands. `any_file` says that a file which
        stood at the path before would do."""
        whole = self.path(f"{folder}/{path}")
        shared = self.path(f"{folder}/{besides}") if besides else ""
        if whole not in self.entries or not self.sure_bytes[self.entries[whole]]:
            return True
        while whole != self.top:
            sure = self.sure_entry[whole] or (any_file and whole in self.stands)
            if not (shared + "/").startswith(whole + "/") and not sure:
                return True
            whole = os.path.dirname(whole)
        return False

    def loss(self, folder="f"):
        """What names something that a cut may take, though itself it may be there."""
        files = self.files(folder)
        for path, text in files.items():
            whole = self.path(f"{folder}/{path}")
            if not os.path.basename(path).startswith(".gitbug-") and not self.sure_bytes[self.entries[whole]]:
                return f"{path} may be there without its bytes"
            if REF.fullmatch(path):
                for name in objects_below(files, text.decode().strip()):
                    if self.unsure(folder, f"objects/{name[:2]}/{name[2:]}", path):
                        return f"{path} may be there without {name}"
            if REF.fullmatch(path) and "/bugs/" in path:
                people = path[: path.index("bugs/")] + "identities/"
                packs = [files[f"objects/{name[:2]}/{name[2:]}"] for name in objects_below(files, text.decode().strip())]
                for other in filter(REF.fullmatch, files):
                    is_author = other.startswith(people) and any(other[-64:].encode() in pack for pack in packs)
                    if is_author and self.unsure(folder, other, path, True):
                        return f"{path} may be there without {other}"
            if re.fullmatch("objects/[0-9a-f]{2}/[0-9a-f]{38}", path) and text.startswith(b"commit"):
                for name in named_below(files, text):
                    if self.unsure(folder, f"objects/{name[:2]}/{name[2:]}", path):
                        return f"the commit {path} may be there without {name}"
            if path == "git-bug/user" and self.unsure(folder, "refs/identities/" + text.decode().strip(), path, True):
                return "the user may be there without the identity"
        return None

    def lost(self, path):
        """What a cut may take of what was acknowledged, by the path of a ref."""
        more = [one for one in self.files("f") if one.startswith("git-bug/clocks/")] if "bugs" in path else ["git-bug/user"]
        return self.lost_head("f", path) + [one for one in more if self.unsure("f", one)]

    def lost_head(self, folder, path):
        """What a cut may take of a ref and all that its head leads to."""
        files = self.files(folder)
        if path not in files:
            return [path]
        needed = [path] + [f"objects/{name[:2]}/{name[2:]}" for name in objects_below(files, files[path].decode().strip())]
        return [one for one in needed if self.unsure(folder, one)]

    def left(self, folder, keeps):
        """The files below a folder after a cut that takes whatever it may, but for the entries that are kept."""
        files = {}
        for path, text in self.files(folder).items():
            older = self.older.get(self.path(f"{folder}/{path}"))
            if not self.unsure(folder, path) or keeps(path):
                files[path] = text
            elif older is not None:
                files[path] = self.bytes[older]
        return files


def cut_after_each(disk, lines, folder="f"):
    """How many calls change a disk, and what a power cut may take after the first of them after which it may take any."""
    count, found = 0, None
    for line in lines:
        if disk.apply(line):
            count += 1
            if found is None:
                try:
                    loss = disk.loss(folder)
                except Unsound as fault:
                    loss = str(fault)
                found = loss and f"a cut after {decoded(line)[:90]!r}: {loss}"
    return count, found


def killing(kill):
    """What has strace kill a run at a call, if at one, and trace that call too."""
    if kill is None:
        return []
    traced = [] if kill[0] in MARKS[-1] else ["-e", MARKS[-1] + "," + kill[0]]
    return [*traced, "-e", f"inject={kill[0]}:signal=KILL:when={kill[1]}"]


def cut(program, above, whole=False):
    """A power cut after each call of a run, and of the run after one that was killed at each call, if not only whole runs are asked for."""
    count, faults = 0, []
    room = Room(program, above)
    seed = ["-e", f"{SAME}:when={seed_call(room.trace(NEW)[2])}"]
    room.close()
    for first, second in ((NEW, EDIT), (NEW, NEW)):
        kills = [None] if whole else [None, *moments_of(program, above, first, False)]
        for kill in kills:
            room = Room(program, above)
            disk = Disk(room.top)
            more = killing(kill)
            for words, kill_words in [(first, more)] + [(second, [])] * 2:
                same = seed if first == second else []
                status, text, lines = room.trace(words, *MARKS, *same, *kill_words)
                cuts, loss = cut_after_each(disk, lines)
                count += cuts
                if loss:
                    faults.append(f"{words[1]} after a kill at {kill}, {loss}")
                lost = disk.lost("refs/identities/" + text.strip()) if status == 0 else []
                if lost:
                    faults.append(f"{words[1]} after a kill at {kill}: a cut may take {lost}, which was acknowledged")
            room.close()
    return count, faults, "power cuts"


def cut_bugs(program, above, whole=False):
    """The same while a bug is made, and while it is commented on, after a run that was killed at each call."""
    count, faults = 0, []
    new = ["f", "new", "Login fails", "It says 500"]
    room = Room(program, above)
    with_person(room)
    kills = [None] if whole else [None, *moments_in(counts_of(room.trace(new)[2]))]
    room.close()
    for kill in kills:
        room, bug = Room(program, above), None
        disk = Disk(room.top)
        more = killing(kill)
        for name in ("user-new", "killed", "new", "comment", "close"):
            words = {"user-new": NEW, "killed": new, "new": new}.get(name) or ["f", name, bug, *["Mine too"][: name == "comment"]]
            status, text, lines = room.trace(words, *MARKS, *(more if name == "killed" else []))
            bug = text.strip() if name == "new" else bug
            cuts, loss = cut_after_each(disk, lines)
            count += cuts
            if loss:
                faults.append(f"{name} after a kill at {kill}, {loss}")
            lost = disk.lost(f"refs/bugs/{bug}") if status == 0 and bug else []
            if lost:
                faults.append(f"{name} after a kill at {kill}: a cut may take {lost}, which was acknowledged")
        room.close()
    return count, faults, "power cuts in commands on bugs"


def told(program, above):
    """Whether a power cut tells a sync that is left out: all of files, all of folders, and each one of a person's making."""
    room = Room(program, above)
    status, text, lines = room.trace(NEW, *MARKS)
    syncs = syncs_in(lines)
    faults = [f"no sync {what} is told by none" for what, left in syncs.items() if not is_told(room, lines, left, text)]
    each = sum(syncs.values(), [])
    alone = sum(is_told(room, lines, [at], text) for at in each)
    print(f"  of the {len(each)} syncs of a new person {alone} are told where one alone is left out")
    room.close()
    return len(each) + 2, faults, "syncs left out"


def syncs_in(lines):
    """The places of the syncs of files and of folders among the calls of a run."""
    syncs = {"of files": [], "of folders": []}
    for at, line in enumerate(lines):
        path = re.match(r"\d+ +fsync\(\d+<([^>]*)>", line)
        if path:
            syncs["of folders" if os.path.isdir(decoded(path.group(1))) else "of files"].append(at)
    return syncs


def is_told(room, lines, left, text):
    disk = Disk(room.top)
    losses = [disk.loss() for at, line in enumerate(lines) if at not in left and disk.apply(line)]
    return any(losses) or bool(disk.lost("refs/identities/" + text.strip()))
