#!/usr/bin/env python3
"""Tries every command of the program against kills, errors, power cuts, full disks, read-only folders and lost peers.

    bench/edge_commands.py [--program FILE] [--folder FOLDER] [--other FOLDER] [--every N] [--commands NAME,..] [KIND]
    bench/edge commands ...                                  all of it, as a part of `bench/edge`

It needs strace. Each command gets a folder in which it has something to do, and a peer if it takes one. The kinds:

    kill EIO ENOSPC EINTR EACCES ENOMEM    at each call that touches the disk; what was acknowledged stands, every ref
                                           leads to held objects, and the same command again puts things right
    cut         a power cut after each call that changes the disk, whose order is free (the disk of `bench/edge`)
    again       the same command over what such a cut leaves at least
    full        every call that needs room fails from some place on; a limit on the size of a file; a small file system
    read-only   another person's folder
    elsewhere   the peer on another file system, which is FOLDER of `--other` (`/dev/shm`), and kills there
    gone        the peer is moved away while the run is held at a call
    at-once     two and three programs over two folders that push into each other

One row is printed for each command and kind, with its count and its faults. The exit status is 1 where there is a
fault. `--every N` tries only each call of so many. Where nothing can be mounted, a row says so; without the right to be
another person nothing is tried as `read-only`.
"""
import argparse
import collections
import os
import pathlib
import re
import resource
import shutil
import signal
import subprocess
import sys
import tempfile
import time

sys.dont_write_bytecode = True
BENCH = pathlib.Path(__file__).resolve().parent
sys.path.insert(0, str(BENCH))
import edge_parts as edge

Unsound = edge.Unsound
ERRORS = ("EIO", "ENOSPC", "EINTR", "EACCES", "ENOMEM")
NOBODY, WAITS = 65_534, "waits"

# Every command: its words, where BUG, CLOSED and so on stand for what was made in the folder; the folder that it
# writes; and what tells that it is done: a command that reads, and a line that it prints then. None where what the
# command itself prints tells it, or the refs.
COMMANDS = {
    "user-new": (["f", "user-new", "Cy", "c@x"], "f", (["users"], "^[0-9a-f]{64}\tCy\tc@x$")),
    "user-edit": (["f", "user-edit", "Ana B", "b@x"], "f", (["users"], "\tAna B\tb@x\t\\*$")),
    "user-set": (["f", "user-set", "OTHER"], "f", (["users"], "^OTHER\t.*\t\\*$")),
    "users": (["f", "users"], "", None),
    "new": (["f", "new", "Another", "Text"], "f", (["ls", "title:Another"], "\topen\tAnother\t")),
    "comment": (["f", "comment", "BUG", "Mine too"], "f", (["show", "BUG"], "^    Mine too$")),
    "edit": (["f", "edit", "COMMENT", "Changed"], "f", (["show", "BUG"], "^    Changed$")),
    "title": (["f", "title", "BUG", "Fails on Mondays"], "f", (["show", "BUG"], "^title Fails on Mondays$")),
    "close": (["f", "close", "BUG"], "f", (["show", "BUG"], "^status closed$")),
    "open": (["f", "open", "CLOSED"], "f", (["show", "CLOSED"], "^status open$")),
    "label-add": (["f", "label-add", "BUG", "b", "a"], "f", (["show", "BUG"], "^label a$")),
    "label-rm": (["f", "label-rm", "BUG", "x"], "f", (["show", "BUG"], "^author ")),
    "meta": (["f", "meta", "BUG", "key", "value"], "f", (["show", "BUG"], '^metadata "key" "value"$')),
    "noop": (["f", "noop", "BUG"], "f", (["show", "BUG"], "^bug ")),
    "show": (["f", "show", "BUG"], "", None),
    "log": (["f", "log", "BUG"], "", None),
    "ls": (["f", "ls"], "f", None),
    "board": (["f", "board"], "f", None),
    "fetch": (["f", "fetch", "o", "p"], "f", None),
    "merge": (["f", "merge", "o"], "f", None),
    "pull": (["f", "pull", "o", "p"], "f", None),
    "push": (["f", "push", "h"], "h", None),
    "pack-refs": (["f", "pack-refs"], "f", None),
}
EXCHANGES = ("fetch", "pull", "push")
READS = ("users", "show", "log")
LISTS = ("ls", "board")
# Once done, these are refused with a reason if they are given again.
ONCE = {
    **dict.fromkeys(["close", "open"], "6 same status"),
    **dict.fromkeys(["label-add", "label-rm"], "5 no label change"),
}


def base(program, above):
    """A room in which every command has something to do, and the words that stand for what was made in it."""
    room = edge.Room(program, above)
    make = lambda *words: edge.made(room, list(words))
    make("f", "user-new", "Ana", "ana@x")
    bug = make("f", "new", "Login fails", "It says 500")
    make("f", "comment", bug, "Since Monday")
    make("f", "label-add", bug, "x")
    closed = make("f", "new", "Closed", "Text")
    make("f", "close", closed)
    make("f", "push", "h")
    other = make("p", "user-new", "Bo", "bo@x")
    make("p", "pull", "o", "f")
    make("p", "comment", bug, "Of Bo")
    make("p", "new", "New of Bo", "Text")
    make("f", "fetch", "o", "p")
    make("f", "ls")
    make("f", "comment", bug, "Of Ana")
    make("f", "new", "Later", "Text")
    make("p", "title", bug, "Login fails often")
    make("p", "new", "Later of Bo", "Text")
    make("f", "merge", "o")
    make("p", "comment", bug, "Once more")
    make("f", "fetch", "o", "p")
    make("f", "comment", bug, "And I")
    make("p", "new", "Last of Bo", "Text")
    comment = re.search("^comment ([0-9a-f]{64})", make("f", "show", bug), re.MULTILINE).group(1)
    return room, {"BUG": bug, "CLOSED": closed, "OTHER": other, "COMMENT": comment}


class Scene:
    """A command in a room where it has something to do: its words, the room before it, and the one after it."""

    def __init__(self, name, before, said):
        words, self.written, self.tells = COMMANDS[name]
        self.name, self.before, self.said = name, before, said
        self.words = [said.get(it, it) for it in words]
        self.after = before.copied()
        self.status, self.text = self.after.run(self.words)
        self.read = [it for it in "fph" if it != self.written]
        self.stood = {it: edge.standing_in(before.top / it) for it in self.read}
        self.refs = edge.refs_in(edge.files_in(self.after.top / (self.written or "f")))
        self.shown, self.shown_then = comments_of(before), texts_of(self.after)
        self.faults = {}

    def counts(self):
        room = self.before.copied()
        counts = edge.counts_of(room.trace(self.words)[2])
        room.close()
        return list(edge.moments_in(counts))

    def filled(self, text):
        for word, id in self.said.items():
            text = text.replace(word, id)
        return text

    def is_done(self, room):
        """Whether what the command does stands in a room."""
        if self.tells:
            words, line = self.tells
            status, text = room.run(["f", *[self.said.get(it, it) for it in words]])
            done = status == 0 and re.search(self.filled(line), text, re.MULTILINE)
            return bool(done) and not (self.name == "label-rm" and "label x" in text.splitlines())
        if self.name in (*READS, *LISTS):
            return room.run(self.words) == (self.status, self.text)
        if self.name in ("merge", "pull"):
            return texts_of(room) == self.shown_then
        return edge.refs_in(edge.files_in(room.top / self.written)) == self.refs

    def close(self):
        self.after.close()


def bugs_of(room):
    found = map(re.compile("refs/bugs/([0-9a-f]{64})").fullmatch, edge.refs_in(edge.files_in(room.top / "f")))
    return sorted(it.group(1) for it in found if it)


def texts_of(room):
    """What `show` prints of each bug of the folder `f`."""
    return {bug: room.run(["f", "show", bug]) for bug in bugs_of(room)}


def comments_of(room):
    """The ids of all comments that `show` prints, with their bugs: what was acknowledged before."""
    found = set()
    for bug, (status, text) in texts_of(room).items():
        if status != 0:
            raise Unsound(f"{bug} is not shown: status {status}")
        found |= {(bug, id) for id in re.findall("^comment ([0-9a-f]{64})", text, re.MULTILINE)}
    return found


def traced(room, words, *more):
    """A run under strace; `waits` is its status where it does not end."""
    try:
        return room.trace(words, *more)
    except subprocess.TimeoutExpired:
        return WAITS, "", []


def plain(room, words, **how):
    """A run; `waits` is its status where it does not end."""
    try:
        return room.run(words, **how)
    except subprocess.TimeoutExpired:
        return WAITS, ""


def check_kept(scene, room, besides=()):
    """What was acknowledged before still prints, every ref leads to held objects, and no other folder has changed."""
    for name in ("f", "h", "p"):
        files = edge.files_in(room.top / name) if (room.top / name).exists() else {}
        edge.heads_in(files)
    for name in scene.read:
        if name not in besides and edge.standing_in(room.top / name) != scene.stood[name]:
            raise Unsound(f"the folder {name} has changed, which is only read")
    if not scene.shown <= comments_of(room):
        raise Unsound("a comment that was acknowledged is gone")


def check_again(scene, room, was_done=None):
    """The same command again puts things right."""
    status, text = room.run(scene.words)
    refused = status == 1 and was_done is not False and text == f"refused {ONCE.get(scene.name)}\n"
    if status != scene.status and not refused:
        raise Unsound(f"the next run ends with {status}: {text[:100]!r}")
    check_kept(scene, room)
    if not scene.is_done(room):
        raise Unsound("the next run does not do it")
    left = [it for it in edge.temporaries_in(room.top / (scene.written or "f")) if is_again_written(scene, it)]
    # (a refused run writes nothing, and so removes nothing)
    if left and not refused:
        check_removed(scene, room, left)


def check_removed(scene, room, left):
    """What was merged is not merged again, so the next merge may write no clock. Then an edit removes the temporary file of one."""
    if scene.name not in ("merge", "pull") or any("/clocks/" not in str(it) for it in left):
        raise Unsound(f"the next run leaves {left}")
    edge.made(room, ["f", "comment", scene.said["BUG"], "Later"])
    kept = [it for it in edge.temporaries_in(room.top / "f") if it in left]
    if kept:
        raise Unsound(f"the next edit leaves {kept}")


def is_again_written(scene, path):
    """Whether a run of this command writes into the folder of a file again. An edit and a merge have other objects each time."""
    if scene.name in READS:
        return False
    return scene.name in ("fetch", "push", "pack-refs") or "/objects/" not in str(path)


def fault_after(scene, room, status, text, may=(0, 3, 5, 6)):
    """What is wrong after a run that was hurt, and after the next one; None if nothing is. It follows from the answer and from
    what stands in the room, so it is found once for each of these."""
    if status is not None and status not in (*may, scene.status):
        return "it waits" if status == WAITS else f"it ends with {status}"
    acknowledged = status == scene.status or (bool(text) and not text.startswith("refused"))
    state = acknowledged, frozenset(standing(room.top))
    if state not in scene.faults:
        scene.faults[state] = fault_in(scene, room, acknowledged)
    return scene.faults[state]


def standing(top):
    """All that stands in a room; the names of temporary files are random."""
    for path, (mode, held) in edge.standing_in(top).items():
        yield re.sub(r"\.gitbug-\w+$", ".gitbug-", path), mode, held


def fault_in(scene, room, acknowledged):
    try:
        check_kept(scene, room)
        done = scene.is_done(room)
        if acknowledged and not done:
            raise Unsound("what was acknowledged does not stand")
        check_again(scene, room, done)
    except (Unsound, subprocess.TimeoutExpired) as fault:
        return str(fault)
    return None


# ---- the kinds: each gives how often it was tried, and the faults

def hurt(scene, how, every):
    """A kill, or an error, at each call."""
    count, faults = 0, []
    inject = "signal=KILL" if how == "kill" else f"error={how}"
    for call, number in [at for at in scene.counts() if how == "kill" or at[0] != "close"][::every]:
        room = scene.before.copied()
        more = ["-e", f"trace={call}", "-e", f"inject={call}:{inject}:when={number}"]
        status, text, _ = traced(room, scene.words, *more)
        killed = how == "kill" and status == -signal.SIGKILL
        may = (0, 3, 4, 5, 6) if how == "ENOMEM" else (0, 3, 5, 6)
        fault = fault_after(scene, room, None if killed else status, "" if scene.name in READS else text, may)
        if how == "EINTR" and status != scene.status:
            fault = f"status {status}: it was not tried again"
        if fault:
            faults.append(f"{call} {number}: {fault}")
        count += 1
        room.close()
    return count, faults


def disk_of(scene, room):
    disk = edge.Disk(room.top)
    for name in "fph":
        disk.hold(name)
    return disk


def cut(scene, every):
    """A power cut after each call, and after the last one what was acknowledged."""
    if scene.name == "pack-refs":
        return cut_packs(scene)
    room = scene.before.copied()
    disk, folder = disk_of(scene, room), scene.written or "f"
    status, _, lines = room.trace(scene.words, *edge.MARKS)
    count, loss = edge.cut_after_each(disk, lines, folder)
    faults = [loss] if loss else []
    old = edge.refs_in(edge.files_in(scene.before.top / folder))
    changed = [ref for ref, head in refs_with_heads(room.top / folder).items() if old.get(ref) != head]
    for ref in changed if status in (0, 1) else []:
        lost = disk.lost_head(folder, ref)
        if lost:
            faults.append(f"a cut after the run may take {lost}, which was acknowledged")
    room.close()
    return count, faults


def cut_packs(scene):
    """A power cut after each call of a pack, which takes what it may: each ref keeps its head."""
    count, faults, room = 0, [], scene.before.copied()
    disk, heads = disk_of(scene, room), refs_with_heads(room.top / "f")
    for line in room.trace(scene.words, *edge.MARKS)[2]:
        if disk.apply(line):
            count += 1
            if edge.refs_in(disk.left("f", lambda path: False)) != heads:
                faults.append(f"a cut after {edge.decoded(line)[:80]!r}: a ref has another head")
    room.close()
    return count, faults


def refs_with_heads(folder):
    return dict(edge.refs_in(edge.files_in(folder)))


def cut_again(scene, every):
    """The same command over what a cut leaves that takes all it may."""
    count, faults, seen, folder = 0, [], set(), scene.written or "f"
    traced = scene.before.copied()
    disk = disk_of(scene, traced)
    for line in traced.trace(scene.words, *edge.MARKS)[2]:
        if not disk.apply(line):
            continue
        files = disk.left(folder, lambda path: False)
        if frozenset(files.items()) in seen:
            continue
        seen.add(frozenset(files.items()))
        room = scene.before.copied()
        shutil.rmtree(room.top / folder)
        put_files(room.top / folder, files)
        fault = fault_after(scene, room, None, "")
        if fault:
            faults.append(f"after {edge.decoded(line)[:80]!r}: {fault}")
        count += 1
        room.close()
    traced.close()
    return count, faults


def put_files(folder, files):
    for path, text in files.items():
        (folder / path).parent.mkdir(parents=True, exist_ok=True)
        (folder / path).write_bytes(text)


ROOM_CALLS = ("write", "mkdir", "rename", "fsync", "openat")


def full(scene, every):
    """Calls that need room fail from some place on; then a limit on the size of a file; then a small file system."""
    count, faults = 0, []
    calls = [at for at in scene.counts() if at[0] in ROOM_CALLS[:4]]
    tries = [(call, number) for call, number in calls[::every]]
    for call, number in tries:
        room, where = scene.before.copied(), f"{call} {number} and later ones"
        status, text, _ = traced(room, scene.words, "-e", f"inject={call}:error=ENOSPC:when={number}+")
        fault = fault_after(scene, room, status, "" if status == 5 or scene.name in READS else text)
        faults += [f"{where}: {fault}"] if fault else []
        room.close()
    for size in (0, 10, 40, 41, 100, 200):
        room = scene.before.copied()
        status, text = plain(room, scene.words, preexec_fn=lambda: limited(size))
        fault = fault_after(scene, room, status, "" if scene.name in READS else text)
        faults += [f"files of at most {size} bytes: {fault}"] if fault else []
        count += 1
        room.close()
    more, small = small_disks(scene)
    return count + len(tries) + more, faults + small


def limited(size):
    signal.signal(signal.SIGXFSZ, signal.SIG_IGN)
    resource.setrlimit(resource.RLIMIT_FSIZE, (size, size))


def small_disks(scene):
    """A file system with a few free pages, if one can be mounted. Room comes back before the next run."""
    count, faults, page = 0, [], resource.getpagesize()
    for free in range(0, 6 if scene.written else 1):
        room = scene.before.copied()
        at, kept = room.top, room.top.with_name(room.top.name + "-kept")
        shutil.copytree(at, kept, symlinks=True)
        if subprocess.run(["mount", "-t", "tmpfs", "-o", "size=4m", "none", str(at)], capture_output=True).returncode:
            shutil.rmtree(kept)
            room.close()
            return 0, ["skipped: a file system cannot be mounted"] if os.geteuid() == 0 else []
        try:
            shutil.copytree(kept, at, symlinks=True, dirs_exist_ok=True)
            fill(at / "filling", free * page)
            status, text = plain(room, scene.words)
            (at / "filling").unlink()
            fault = fault_after(scene, room, status, "" if scene.name in READS else text)
            faults += [f"{free} free pages: {fault}"] if fault else []
            count += 1
        finally:
            subprocess.run(["umount", str(at)], check=True)
            shutil.rmtree(kept)
        room.close()
    return count, faults


def fill(file, left):
    """Fills a file system but for so many bytes."""
    with open(file, "wb", buffering=0) as out:
        try:
            while True:
                out.write(bytes(65_536))
        except OSError:
            pass
        try:
            while True:
                out.write(bytes(1))
        except OSError:
            pass
        out.truncate(max(0, out.tell() - left))


def read_only(scene, every):
    """A folder of another person: what reads prints the same; what writes is a fault of the disk."""
    if os.geteuid() != 0:
        return 0, []
    room = scene.before.copied()
    for path in [room.top.parent, room.top]:
        path.chmod(0o755)
    before = {it: edge.standing_in(room.top / it) for it in "fph"}
    status, text = plain(room, scene.words, user=NOBODY, group=NOBODY, extra_groups=[])
    faults = []
    if {it: edge.standing_in(room.top / it) for it in "fph"} != before:
        faults.append("a folder that may not be written has changed")
    wanted = [(0, scene.text)] if scene.name in READS else [(3, "")]
    if (status, text) not in wanted:
        faults.append(f"status {status}, {text[:80]!r}")
    room.close()
    return 1, faults


def elsewhere(scene, every, other):
    """The peer on another file system: the same answers, and kills."""
    if scene.name not in EXCHANGES:
        return 0, []
    count, faults, peer = 0, [], scene.words[-1]
    counts = scene.counts()
    moments = [None, *[at for at in counts if at[0] in ("write", "rename", "fsync", "openat", "mkdir")][::every]]
    for at in moments:
        with tempfile.TemporaryDirectory(dir=other) as far:
            room = scene.before.copied()
            shutil.move(room.top / peer, f"{far}/{peer}")
            words = [*scene.words[:-1], f"{far}/{peer}"]
            more = ["-e", f"inject={at[0]}:signal=KILL:when={at[1]}"] if at else []
            status, text, _ = traced(room, words, *more)
            fault = None if at or (status, text) == (scene.status, scene.text) else f"status {status}, {text[:100]!r}"
            again = plain(room, words)
            shutil.move(f"{far}/{peer}", room.top / peer)
            fault = fault or (f"the next run ends with {again[0]}" if again[0] != scene.status else None)
            fault = fault or fault_after(scene, room, None, "")
            faults += [f"a kill at {at}: {fault}"] if fault else []
            count += 1
            room.close()
    return count, faults


def gone(scene, every):
    """The peer is moved away while the run is stopped at a call, and comes back before the next run."""
    if scene.name not in EXCHANGES:
        return 0, []
    count, faults, peer = 0, [], scene.words[-1]
    held = ("openat", "statx", "rename", "write", "getdents64")
    for call, number in [at for at in scene.counts() if at[0] in held][::every]:
        room = scene.before.copied()
        status, text = without_peer(room, scene.words, room.top / peer, call, number)
        away = room.top / "away"
        if away.exists() and (room.top / peer).exists():
            shutil.rmtree(room.top / peer)
        if away.exists():
            away.rename(room.top / peer)
        may = (0, 1, 3, 5)
        fault = "it waits" if status is None else gone_fault(scene, room, status, may)
        faults += [f"gone at {call} {number}: {fault}"] if fault else []
        count += 1
        room.close()
    return count, faults


def gone_fault(scene, room, status, may):
    """What is wrong after a run whose peer went, and after the next."""
    if status not in may:
        return f"it ends with {status}"
    try:
        check_kept(scene, room, [scene.words[-1]])
        check_again(scene, room)
    except (Unsound, subprocess.TimeoutExpired) as fault:
        return str(fault)
    return None


def without_peer(room, words, peer, call, number):
    """The status and text of a run whose peer is moved away at a call; None where it waits."""
    log = room.top.parent / "held"
    log.write_text("")
    inject = ["-e", f"trace={call}", "-e", f"inject={call}:signal=STOP:when={number}"]
    run = subprocess.Popen(
        ["strace", "-f", "-qq", "-o", str(log), *inject, room.program, *words],
        cwd=room.top, stdout=subprocess.PIPE, stderr=subprocess.DEVNULL,
    )
    end = time.monotonic() + edge.WAIT
    while run.poll() is None and time.monotonic() < end:
        stopped = re.search(r"^(\d+) +--- stopped by SIGSTOP", log.read_text(errors="replace"), re.MULTILINE)
        if stopped:
            peer.rename(room.top / "away")
            os.kill(int(stopped.group(1)), signal.SIGCONT)
            break
        time.sleep(0.002)
    try:
        text, _ = run.communicate(timeout=edge.WAIT)
    except subprocess.TimeoutExpired:
        run.kill()
        run.communicate()
        return None, ""
    return run.returncode, text.decode(errors="replace")


def at_once(program, above, rounds):
    """Two and three programs at once over two folders that push into each other. At the end both show the same."""
    before, said = base(program, above)
    bug = said["BUG"]
    groups = {
        "two pushes": [["f", "push", "p"], ["p", "push", "f"]],
        "two pulls": [["f", "pull", "o", "p"], ["p", "pull", "o", "f"]],
        "a push, a pull": [["f", "push", "p"], ["p", "pull", "o", "f"]],
        "two pushes, an edit": [["f", "push", "p"], ["p", "push", "f"], ["f", "comment", bug, "At once"]],
        "a pull, a push, an edit": [["f", "pull", "o", "p"], ["p", "push", "f"], ["p", "comment", bug, "At once"]],
        "a pack, two pushes": [["f", "pack-refs"], ["f", "push", "p"], ["p", "push", "f"]],
        "a pull from a missing folder, an edit": [["f", "pull", "o", "none"], ["f", "comment", bug, "At once"]],
    }
    for what, commands in groups.items():
        faults = []
        for _ in range(rounds):
            room = before.copied()
            fault = at_once_fault(room, commands)
            faults += [fault] if fault else []
            room.close()
        yield what, rounds, faults
    before.close()


def at_once_fault(room, commands):
    how = {"cwd": room.top, "stdout": subprocess.PIPE, "stderr": subprocess.DEVNULL}
    runs = [subprocess.Popen([room.program, *it], **how) for it in commands]
    try:
        ends = [(run.communicate(timeout=2 * edge.LOCK_WAIT)[0].decode(), run.returncode) for run in runs]
    except subprocess.TimeoutExpired:
        for run in runs:
            run.kill()
        return "a run waits"
    if any(status not in (0, 1) for _, status in ends):
        return f"a run ends with {[status for _, status in ends]}"
    if any(status == 1 and re.search("damaged|held|invalid", text) for text, status in ends):
        return f"an exchange of sound folders is refused: {ends}"
    try:
        for words in (["f", "pull", "o", "p"], ["p", "pull", "o", "f"], ["f", "pull", "o", "p"]):
            edge.made(room, words)
        for name in "fp":
            edge.heads_in(edge.files_in(room.top / name))
        shown = [{bug: room.run([name, "show", bug]) for bug in bugs_of(room)} for name in "fp"]
    except (Unsound, AssertionError) as fault:
        return str(fault)
    if shown[0] != shown[1]:
        return "the two folders show other texts"
    edits = [it for it in commands if it[1] == "comment"]
    return None if all("    At once" in shown[0][it[2]][1] for it in edits) else "an acknowledged comment is not shown"


# ---- the table

KINDS = ["kill", *ERRORS, "cut", "again", "full", "read-only", "elsewhere", "gone", "at-once"]
GROUPS = {
    "kills and errors": ("kill", *ERRORS),
    "power cuts": ("cut", "again"),
    "full disks and folders that may not be written": ("full", "read-only"),
    "peers elsewhere and gone": ("elsewhere", "gone"),
    "at once": ("at-once",),
}


def tried(kind, scene, every, other):
    if kind in ("kill", *ERRORS):
        return hurt(scene, kind, every)
    if kind == "elsewhere":
        return elsewhere(scene, every, other)
    return {"cut": cut, "again": cut_again, "full": full, "read-only": read_only, "gone": gone}[kind](scene, every)


def row(name, kind, count, faults):
    skipped = [it for it in faults if it.startswith("skipped")]
    faults = [it for it in faults if it not in skipped]
    if count or faults:
        print(f"| {name} | {kind} | {count} | {len(faults)} |", flush=True)
    for fault in [*faults[:5], *skipped[:1]]:
        print(f"  {fault}", flush=True)
    return count, len(faults)


def commands(program, above, every=1, kinds=KINDS, names=tuple(COMMANDS), other="/dev/shm", rounds=20):
    """All rows; how many were tried, and how many faults there are."""
    print("| command | kind | tried | faults |\n|---|---|--:|--:|", flush=True)
    before, said = base(program, above)
    total = collections.Counter()
    for name in names:
        scene = Scene(name, before, said)
        for kind in [it for it in kinds if it != "at-once"]:
            count, faults = row(name, kind, *tried(kind, scene, every, other))
            total.update({"count": count, "faults": faults, kind: count})
        scene.close()
    for what, count, faults in at_once(program, above, rounds) if "at-once" in kinds else []:
        count, faults = row(what, "at-once", count, faults)
        total.update({"count": count, "faults": faults, "at-once": count})
    before.close()
    print("\n" + "; ".join(f"{what}: {sum(total[it] for it in which)}" for what, which in GROUPS.items()))
    return total["count"], total["faults"]


def main():
    take = argparse.ArgumentParser(description=__doc__, formatter_class=argparse.RawDescriptionHelpFormatter)
    take.add_argument("kinds", nargs="*", help="which kinds, all if none")
    take.add_argument("--program", default=str(BENCH.parent / ".built/gitbug"))
    take.add_argument("--folder", help="a folder of the file system to be tried")
    take.add_argument("--other", default="/dev/shm", help="a folder of another file system, for the peers")
    take.add_argument("--every", type=int, default=1, help="only each call of so many")
    take.add_argument("--commands", help="which commands, with commas between; all if none")
    take.add_argument("--wait", type=int, default=edge.WAIT, help="after so many seconds a run waits for ever")
    take.add_argument("--rounds", type=int, default=20, help="how often each group of programs runs at once")
    given = take.parse_args()
    edge.WAIT = given.wait
    names = given.commands.split(",") if given.commands else list(COMMANDS)
    with tempfile.TemporaryDirectory(prefix="gitbug-commands-", dir=given.folder) as above:
        program = str(pathlib.Path(given.program).resolve())
        count, faults = commands(program, above, given.every, given.kinds or KINDS, names, given.other, given.rounds)
    print(f"{count} tried, {faults} faults")
    sys.exit(1 if faults else 0)


if __name__ == "__main__":
    main()
