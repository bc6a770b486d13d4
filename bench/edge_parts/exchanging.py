"""Exchanges and merges: kills, cuts, plantings, two at once."""
import collections
import fcntl
import itertools
import os
import re
import shutil
import subprocess
import time

from edge_parts.folders import (
    EDIT, LOCK_WAIT, MARKS, NEW, Unsound, files_in, heads_in, standing_in, temporaries_in,
)
from edge_parts.rooms import Room, counts_of, made, moments_in
from edge_parts.plantings import plant
from edge_parts.disks import Disk, cut_after_each, decoded, killing, syncs_in
from edge_parts.neighbours import both


# Each command with the folder that it reads and the one that it writes.
EXCHANGES = {"fetch": (["f", "fetch", "o", "p"], "p", "f"), "push": (["f", "push", "p"], "f", "p")}


class Exchange:
    """A fetch or a push of a person and two bugs. The folder that takes them is missing, or it has a person and a bug of its
    own and took older heads before. It has the room before it, and the one after it where nothing disturbed it."""

    def __init__(self, program, above, verb, is_first):
        self.verb, self.is_first, (self.words, self.read, self.written) = verb, is_first, EXCHANGES[verb]
        self.before = before_exchange(program, above, verb, is_first)
        self.after = self.before.copied()
        self.refs = [ref_told(line) for line in made(self.after, self.words).splitlines()]
        self.stood, self.old = standing_in(self.before.top / self.read), files_in(self.before.top / self.written)
        self.new = files_in(self.after.top / self.written)

    def lines(self):
        """The calls of the undisturbed run, as they would be in the room before it."""
        room = self.before.copied()
        lines = [moved(line, room, self.before) for line in room.trace(self.words, *MARKS)[2]]
        room.close()
        return lines

    def moments(self):
        """Each call of the undisturbed run, by its name and its number among the calls of that name."""
        room = self.before.copied()
        counts = counts_of(room.trace(self.words)[2])
        room.close()
        return list(moments_in(counts))

    def changes(self):
        """Each call that changes the disk, in the same way."""
        disk, counts = self.disk(self.before), collections.Counter()
        for line in self.lines():
            call = re.match(r"\d+ +(\w+)\(", line)
            if call:
                counts[call.group(1)] += 1
                if disk.apply(line) and "<pipe:" not in decoded(line):
                    yield call.group(1), counts[call.group(1)]

    def disk(self, room):
        """A disk that holds both folders as they are in a room."""
        return held_disk(room)

    def check_kept(self, room):
        """The folder that is read is as it was. Each file of the other is as before or as after, and each ref leads to held
        objects."""
        if standing_in(room.top / self.read) != self.stood:
            raise Unsound("the folder that is only read has changed")
        now = files_in(room.top / self.written)
        heads_in(now)
        for path in {**self.old, **now}:
            if path not in now or now[path] not in (self.old.get(path), self.new.get(path)):
                raise Unsound(f"{path} is neither as before nor as after")

    def check_done(self, room):
        if files_in(room.top / self.written) != self.new:
            raise Unsound("it is not done")

    def check_again(self, room):
        """It runs again and is done. Nothing is left of the run before."""
        status, text = room.run(self.words)
        if status != 0 or not text:
            raise Unsound(f"the next run ends with {status}")
        self.check_kept(room)
        self.check_done(room)
        if temporaries_in(room.top):
            raise Unsound("the next run leaves a temporary file")

    def close(self):
        self.before.close()
        self.after.close()


def moved(line, room, other):
    """The line of a call in a room, as it would be in another."""
    there, here = ("".join(f"\\x{ord(sign):02x}" for sign in str(one.top)) for one in (room, other))
    return line.replace(there, here)


def before_exchange(program, above, verb, is_first):
    """The room before an exchange."""
    room = Room(program, above)
    words, source, target = EXCHANGES[verb]
    made(room, [source, *NEW[1:]])
    bug = made(room, [source, "new", "Login fails", "It says 500"])
    if not is_first:
        made(room, [target, "user-new", "Bo", "bo@x"])
        made(room, [target, "new", "Of Bo", "Text"])
        made(room, words)
    made(room, [source, *EDIT[1:]])
    for more in (["comment", bug, "Mine too"], ["close", bug], ["new", "Another", "Text"]):
        made(room, [source, *more])
    return room


def all_exchanges(program, above):
    for verb, is_first in itertools.product(EXCHANGES, (True, False)):
        exchange = Exchange(program, above, verb, is_first)
        yield exchange
        exchange.close()


def exchanges(program, above, every=1):
    """A kill and errors at each call of a fetch and of a push: each ref leads to held objects, the folder that is read stays
    as it is, and the same command again leaves both folders as if nothing had been."""
    count, faults = 0, []
    ends = collections.defaultdict(collections.Counter)
    hurts = ["signal=KILL"] + [f"error={error}" for error in ("EIO", "ENOSPC", "EINTR")]
    for exchange in all_exchanges(program, above):
        tries = itertools.product(hurts, exchange.moments())
        for hurt, (call, number) in [(hurt, at) for hurt, at in tries if "KILL" in hurt or at[0] != "close"][::every]:
            status, fault = hurt_exchange(exchange, call, f"inject={call}:{hurt}:when={number}")
            ends[hurt][status] += 1
            if fault:
                faults.append(f"{exchange.verb} with {hurt} at {call} {number}: {fault}")
            count += 1
    for hurt, counts in ends.items():
        print(f"  {hurt}: " + ", ".join(f"status {status} {times} times" for status, times in sorted(counts.items())))
    return count, faults, "kills and errors in exchanges"


def hurt_exchange(exchange, call, inject):
    """The status of a run that is hurt, and what is wrong after it and after the next."""
    room = exchange.before.copied()
    status, text, _ = room.trace(exchange.words, "-e", f"trace={call}", "-e", inject)
    try:
        if status not in (0, 3, 5, 6) and "KILL" not in inject:
            raise Unsound(f"it ends with {status}")
        if status != 0 and "EINTR" in inject:
            raise Unsound(f"it ends with {status}: it was not tried again")
        exchange.check_kept(room)
        if status == 0 or text:
            exchange.check_done(room)
        exchange.check_again(room)
    except Unsound as fault:
        return status, str(fault)
    finally:
        room.close()
    return status, None


def cut_exchanges(program, above, whole=False):
    """A power cut after each call of a fetch and of a push, and of the same command again after one that was killed before
    each call that changes the disk, if not only whole runs are asked for."""
    count, faults = 0, []
    for exchange in all_exchanges(program, above):
        for kill in [None] if whole else [None, *exchange.changes()]:
            room = exchange.before.copied()
            disk = exchange.disk(room)
            for run, more in (("the run", killing(kill)), ("the next run", [])):
                status, text, lines = room.trace(exchange.words, *MARKS, *more)
                cuts, loss = cut_after_each(disk, lines, exchange.written)
                count += cuts
                where = f"{exchange.verb}, {run}, a kill before {kill}"
                if loss:
                    faults.append(f"{where}: {loss}")
                for line in text.splitlines() if status == 0 else []:
                    lost = disk.lost_head(exchange.written, ref_told(line))
                    if lost:
                        faults.append(f"{where}: a cut may take {lost}, though {line!r} was printed")
            room.close()
    return count, faults, "power cuts in exchanges"


def cut_merges(program, above, whole=False):
    """The same while the folder that fetched merges: a person, a bug that is ahead, a new one, and one that both went on with."""
    count, faults, words = 0, [], ["f", "merge", "o"]
    before = before_merge(program, above)
    made(before, EXCHANGES["fetch"][0])
    for kill in [None] if whole else [None, *changes_of(before, words)]:
        room = before.copied()
        disk = held_disk(room)
        for run, more in (("the run", killing(kill)), ("the next run", [])):
            status, text, lines = room.trace(words, *MARKS, *more)
            cuts, loss = cut_after_each(disk, lines)
            count += cuts
            where = f"merge, {run}, a kill before {kill}"
            if loss:
                faults.append(f"{where}: {loss}")
            for line in text.splitlines() if status == 0 else []:
                lost = disk.lost_head("f", ref_told(line))
                if lost:
                    faults.append(f"{where}: a cut may take {lost}, though {line!r} was printed")
        room.close()
    before.close()
    return count, faults, "power cuts in merges"


def before_merge(program, above):
    """The room before an exchange, with one more bug, which both folders have and both went on with."""
    room = before_exchange(program, above, "fetch", False)
    bug = made(room, ["f", "new", "Both go on", "Text"])
    made(room, ["f", "push", "p"])
    for folder in "fp":
        made(room, [folder, "comment", bug, "Of " + folder])
    return room


def pulls(program, above, every=1):
    """A kill and errors at each call of a pull: each ref leads to held objects, the peer stays as it is, and the same command
    again leaves every bug with the text that a pull gives which nothing disturbed."""
    count, faults, words = 0, [], ["f", "pull", "o", "p"]
    before = before_merge(program, above)
    peer, after = standing_in(before.top / "p"), before.copied()
    made(after, words)
    wanted = shown(after)
    traced = before.copied()
    moments = list(moments_in(counts_of(traced.trace(words)[2])))
    tries = itertools.product(["signal=KILL"] + [f"error={error}" for error in ("EIO", "ENOSPC", "EINTR")], moments)
    for hurt, (call, number) in [(hurt, at) for hurt, at in tries if "KILL" in hurt or at[0] != "close"][::every]:
        room = before.copied()
        status, _, _ = room.trace(words, "-e", f"trace={call}", "-e", f"inject={call}:{hurt}:when={number}")
        fault = pull_fault(room, words, peer, wanted, status if "KILL" not in hurt else None)
        if fault:
            faults.append(f"pull with {hurt} at {call} {number}: {fault}")
        count += 1
        room.close()
    for room in (before, after, traced):
        room.close()
    return count, faults, "kills and errors in pulls"


def pull_fault(room, words, peer, wanted, status):
    """What is wrong after a pull that was hurt, and after the next one."""
    try:
        if status not in (None, 0, 3, 5, 6):
            raise Unsound(f"it ends with {status}")
        heads_in(files_in(room.top / "f"))
        again, _ = room.run(words)
        if again != 0:
            raise Unsound(f"the next run ends with {again}")
        heads_in(files_in(room.top / "f"))
        if standing_in(room.top / "p") != peer:
            raise Unsound("the peer has changed")
        if shown(room) != wanted:
            raise Unsound("a bug shows another text")
    except Unsound as fault:
        return str(fault)
    return None


def shown(room):
    """The text of each bug of the folder."""
    bugs = sorted(path.name for path in (room.top / "f/refs/bugs").iterdir())
    return {bug: made(room, ["f", "show", bug]) for bug in bugs}


def changes_of(before, words):
    """Each call of a run in a copy of a room that changes the disk, by its name and its number among the calls of that name."""
    room, counts = before.copied(), collections.Counter()
    disk = held_disk(room)
    for line in room.trace(words, *MARKS)[2]:
        call = re.match(r"\d+ +(\w+)\(", line)
        if call:
            counts[call.group(1)] += 1
            if disk.apply(line) and "<pipe:" not in decoded(line):
                yield call.group(1), counts[call.group(1)]
    room.close()


def held_disk(room):
    """A disk that holds both folders as they are in a room."""
    disk = Disk(room.top)
    disk.hold("f")
    disk.hold("p")
    return disk


def told_exchanges(program, above):
    """The same for a fetch and a push: whether a power cut tells a sync that is left out."""
    count, faults = 0, []
    for exchange in all_exchanges(program, above):
        lines = exchange.lines()
        syncs = syncs_in(moved(line, exchange.before, exchange.after) for line in lines)
        faults += [f"{exchange.verb}: no sync {what} is told by none" for what, left in syncs.items() if not is_exchange_told(exchange, lines, left)]
        each = sum(syncs.values(), [])
        alone = sum(is_exchange_told(exchange, lines, [at]) for at in each)
        print(f"  of the {len(each)} syncs of a {exchange.verb} {alone} are told where one alone is left out")
        count += len(each) + 2
    return count, faults, "syncs left out of exchanges"


def is_exchange_told(exchange, lines, left):
    disk = exchange.disk(exchange.before)
    losses = [disk.loss(exchange.written) for at, line in enumerate(lines) if at not in left and disk.apply(line)]
    return any(losses) or any(disk.lost_head(exchange.written, ref) for ref in exchange.refs)


def ref_told(line):
    """The path of the ref of which a line of an exchange tells."""
    verb, word, id, _ = line.split(" ", 3)
    return ("refs/remotes/o/" if verb == "fetch" else "refs/") + {"identity": "identities", "bug": "bugs"}[word] + "/" + id


def cut_and_again(program, above):
    """The same exchange again, over what a power cut during it may have left: each ref leads to held objects, and it is done."""
    count, faults = 0, []
    for exchange in all_exchanges(program, above):
        disk, seen = exchange.disk(exchange.before), set()
        for line in exchange.lines():
            for what, files in lefts(disk, exchange.written) if disk.apply(line) else []:
                if frozenset(files.items()) not in seen:
                    seen.add(frozenset(files.items()))
                    fault = fault_after_cut(exchange, files)
                    if fault:
                        faults.append(f"{exchange.verb} after a cut after {decoded(line)[:90]!r} that takes {what}: {fault}")
                    count += 1
    return count, faults, "exchanges after a power cut"


def lefts(disk, folder):
    """What may be left of a folder after a cut now: what is sure alone, that and the commits, or all but one file."""
    files = disk.files(folder)
    unsure = [path for path in files if disk.unsure(folder, path)]
    yield "all it may", disk.left(folder, lambda path: False)
    yield "all it may but commits", disk.left(folder, lambda path: files[path].startswith(b"commit"))
    for one in unsure[-1:] + unsure[:-1][:: max(1, len(unsure) // 4)]:
        yield one, disk.left(folder, lambda path: path != one)


def fault_after_cut(exchange, files):
    """What is wrong after an exchange into a folder with these files."""
    room = exchange.before.copied()
    written = room.top / exchange.written
    shutil.rmtree(written, ignore_errors=True)
    for path, text in files.items():
        (written / path).parent.mkdir(parents=True, exist_ok=True)
        (written / path).write_bytes(text)
    try:
        exchange.check_again(room)
    except Unsound as fault:
        return str(fault)
    finally:
        room.close()
    return None


# Two exchanges at once, by the folders that they work in.
AT_ONCE = {
    "two pushes into each other": (["a", "push", "b"], ["b", "push", "a"]),
    "two pushes into one folder": (["a", "push", "h"], ["b", "push", "h"]),
    "a fetch beside a push of the same folders": (["a", "fetch", "o", "b"], ["a", "push", "b"]),
    "a fetch from a folder into which another pushes": (["a", "fetch", "o", "h"], ["b", "push", "h"]),
    "a fetch from a folder that pushes": (["h", "fetch", "o", "a"], ["a", "push", "b"]),
    "two pushes into a missing folder": (["a", "push", "new"], ["b", "push", "new"]),
    "two fetches into a missing folder": (["new", "fetch", "o", "a"], ["new", "fetch", "q", "b"]),
    "a push of nothing and a push into a missing folder": (["nothing", "push", "new"], ["a", "push", "new"]),
}


def exchanges_at_once(program, above, rounds):
    """Two exchanges at once: all folders are as if one had waited for the other, whichever it was."""
    faults, before = [], three_folders(program, above)
    for what, pair in AT_ONCE.items():
        ways, met = ways_to_end(before, pair), collections.Counter()
        for _ in range(rounds):
            room = before.copied()
            try:
                found = both(room, pair), files_in(room.top)
                way = next((way for way, end in ways.items() if end == found), None)
                if way is None or temporaries_in(room.top):
                    faults.append(f"{what}: {found[0]}, and the folders are as after neither order")
                met[way] += 1
            except subprocess.TimeoutExpired:
                faults.append(f"{what}: it waits")
            room.close()
        print(f"  {what}: " + ", ".join(f"{way} {times} times" for way, times in met.items()))
    before.close()
    return rounds * len(AT_ONCE), faults, "pairs of exchanges"


def three_folders(program, above):
    """A room with two people's folders that exchanged and went on, each with a bug that is ahead, a new one, and one that
    both went on with, and a folder into which one of them pushed before."""
    room = Room(program, above)
    made(room, ["a", *NEW[1:]])
    made(room, ["b", "user-new", "Bo", "bo@x"])
    bugs = {title: made(room, ["a", "new", title, "Text"]) for title in ("Ahead in a", "Ahead in b", "Both go on")}
    for words in (["a", "push", "b"], ["b", "push", "a"], ["a", "push", "h"]):
        made(room, words)
    for folder in "ab":
        made(room, [folder, "new", "New in " + folder, "Text"])
        made(room, [folder, "comment", bugs["Ahead in " + folder], "More"])
        made(room, [folder, "comment", bugs["Both go on"], "Of " + folder])
    return room


def ways_to_end(before, pair):
    """How a pair may end, and what all folders hold then: one after the other, or one alone while the other waits too long."""
    one, two = pair
    ways = {}
    for way, order in {"first, second": [one, two], "second, first": [two, one], "first alone": [one], "second alone": [two]}.items():
        room = before.copied()
        ends = {tuple(words): room.run(words) for words in order}
        told = [ends.get(tuple(words), (3, "")) for words in pair]
        ways[way] = [(status, text.strip()) for status, text in told], files_in(room.top)
        for folder in ("a", "b", "h", "new"):
            heads_in(files_in(room.top / folder))
        room.close()
    return ways


def held_exchanges(program, above):
    """A lock of one of the two folders that another program holds for ever. Beside a reader of the folder that it reads an
    exchange goes on. Else it ends with status 3, and others can write in the folder that is free meanwhile."""
    faults, cases = [], []
    for verb, (words, read, written) in EXCHANGES.items():
        cases += [(verb, words, read, fcntl.LOCK_SH, 0), (verb, words, read, fcntl.LOCK_EX, 3), (verb, words, written, fcntl.LOCK_SH, 3)]
    for verb, words, name, kind, wanted in cases:
        room = before_exchange(program, above, verb, False)
        folder = os.open(room.top / name, os.O_RDONLY)
        fcntl.flock(folder, kind)
        begin = time.monotonic()
        running = subprocess.Popen([program, *words], cwd=room.top, stdout=subprocess.PIPE, stderr=subprocess.DEVNULL)
        beside = room.run(["p" if name == "f" else "f", "user-new", "Cy", "c@x"])[0] if wanted else 0
        text = running.communicate(timeout=3 * LOCK_WAIT)[0]
        print(f"  {verb} ends with {running.returncode} after {time.monotonic() - begin:.1f} s")
        if running.returncode != wanted or bool(text) == bool(wanted) or beside != 0:
            faults.append(f"{verb} with a lock on {name}: status {running.returncode} and not {wanted}, and beside it {beside}")
        os.close(folder)
        room.close()
    return len(cases), faults, "locks held during exchanges"


def with_itself(program, above):
    """An exchange of a folder with itself, by another of its names: it ends at once, and keeps all refs and objects."""
    count, faults = 0, []
    for verb, other in itertools.product(EXCHANGES, ("l", "./f", "f/", "f//.", "whole", "f/refs", "g/l", ".")):
        before = before_exchange(program, above, "push", False)
        room = before.copied()
        (room.top / "g").mkdir()
        (room.top / "l").symlink_to("f")
        (room.top / "g/l").symlink_to(room.f)
        other = str(room.f) if other == "whole" else other
        for words in (["f", *EXCHANGES[verb][0][1:-1], other], [other, *EXCHANGES[verb][0][1:-1], "f"]):
            fault = fault_with_itself(room, before, words)
            if fault:
                faults.append(f"{words}: {fault}")
            count += 1
        before.close()
        room.close()
    return count, faults, "exchanges of a folder with itself"


def fault_with_itself(room, before, words):
    try:
        status, _ = room.run(words)
    except subprocess.TimeoutExpired:
        return "it waits"
    old, now = files_in(before.f), files_in(room.f)
    try:
        heads_in(now)
    except Unsound as fault:
        return str(fault)
    lost = [path for path in old if now.get(path) != old[path]]
    return f"status {status}, and it changes {lost}" if lost or status not in (0, 1) else None


def planted_exchanges(program, above, every=1):
    """Links, pipes, sockets and folders at each place of the peer and of the own folder, before a fetch and before a push."""
    count, faults = 0, []
    for exchange in all_exchanges(program, above):
        for folder in (exchange.written,) if exchange.is_first else (exchange.read, exchange.written):
            top = exchange.after.top
            places = [str(path.relative_to(top)) for path in [top / folder, *sorted((top / folder).rglob("*"))]]
            places.append(f"{folder}/{os.path.dirname(exchange.refs[-1])}/.gitbug-0")
            tries = itertools.product(places, ("link", "dangling", "to folder", "pipe", "socket", "folder"))
            for place, kind in list(tries)[::every]:
                room = exchange.before.copied()
                plant(room, room.top / place, kind)
                fault = problem_of_exchange(room, exchange, place)
                if fault:
                    faults.append(f"{kind} at {place}, {exchange.verb}: {fault}")
                count += 1
                room.close()
    return count, faults, "plantings before exchanges"


def problem_of_exchange(room, exchange, place):
    """What an exchange does that it must not, with something planted at a place. By a trace: it opens nothing outside, and
    no call goes through a link. A link that the words name is followed, since a person wrote the word."""
    outside, stood = room.top / "outside", standing_in(room.top / exchange.read)
    is_named = "/" not in place
    try:
        status, _, lines = room.trace(exchange.words, "-y", "-e", "trace=%file,read,getdents64")
    except subprocess.TimeoutExpired:
        return "it waits"
    if status not in (0, 1, 3):
        return f"status {status}"
    for line in [] if is_named else lines:
        if f"<{outside}" in line or ((room.top / place).is_symlink() and f'"{place}/' in line):
            return f"it goes outside: {line}"
    left = sorted(str(path.relative_to(outside)) for path in outside.rglob("*"))
    if (outside / "victim").read_text() != "kept" or (left != ["folder", "victim"] and not is_named):
        return "it wrote outside of its folder"
    if standing_in(room.top / exchange.read) != stood:
        return "it changed the folder that it reads"
    try:
        heads_in(files_in(room.top / exchange.written) if place.startswith(exchange.read) else {})
    except Unsound as fault:
        return str(fault)
    return None
