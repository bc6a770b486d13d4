"""Two programs at once, locks, signals, limits, and what is said on standard error."""
import collections
import fcntl
import os
import re
import subprocess
import time

from edge_parts.folders import EDIT, LOCK_WAIT, NEW, Unsound, temporaries_in
from edge_parts.rooms import Room, counts_of, made, moments_in, moments_of, seed_call, with_bug, with_person


def edits_at_once(program, above, rounds):
    """Two programs at once that edit one bug: both edits stand."""
    faults = []
    for _ in range(rounds):
        room, bug = with_bug(program, above)
        ends = both(room, [["f", "comment", bug, "One"], ["f", "title", bug, "Two"]])
        if [status for status, _ in ends] != [0, 0] or room.bugs() != {bug: 3}:
            faults.append(f"a pair ends with {ends}, {room.bugs()}")
        room.close()
    return rounds, faults, "pairs of edits of one bug"


def remnants(program, above):
    """What killed runs left in a folder goes when the folder is next written."""
    room = Room(program, above)
    with_person(room)
    folders = [path for path in room.f.rglob("*") if path.is_dir() and path.name in ("identities", "git-bug")]
    for folder in folders:
        for number in range(3):
            (folder / f".gitbug-{number}").write_text("left")
    status, _ = room.run(EDIT)
    kept = [str(path) for path in temporaries_in(room.f / "refs")]
    faults = [f"status {status}, {kept}"] if status or kept else []
    room.close()
    return 3, faults, "remnants in a folder that is written"


def injected(program, above):
    """An error at each call: the run ends by itself, what it acknowledged stands, and the folder is sound."""
    count, faults = 0, []
    ends = collections.defaultdict(collections.Counter)
    for error in ("EIO", "ENOSPC", "EINTR", "EACCES", "ENOMEM", "EINVAL"):
        for words, person in ((NEW, False), (EDIT, True)):
            for call, number in moments_of(program, above, words, person):
                if call == "close":
                    continue
                room = Room(program, above)
                me = with_person(room) if person else None
                status, text, _ = room.trace(words, "-e", f"inject={call}:error={error}:when={number}")
                ends[error][status] += 1
                where = f"{words[1]} with {error} at {call} {number}, status {status}"
                try:
                    if status not in (0, 1, 3, 4, 5, 6):
                        raise Unsound("it was ended")
                    persons = room.persons()
                    if (status == 0 or text) and persons.get(text.strip()) != (2 if person else 1):
                        raise Unsound("what was acknowledged does not stand")
                    if error == "EINTR" and status != 0:
                        raise Unsound("it was not tried again")
                    if me and persons.get(me) not in (1, 2):
                        raise Unsound("the identity is lost")
                except Unsound as fault:
                    faults.append(f"{where}: {fault}")
                count += 1
                room.close()
    for error, counts in ends.items():
        print(f"  {error}: " + ", ".join(f"status {status} {times} times" for status, times in sorted(counts.items())))
    return count, faults, "errors"


def interrupted(program, above):
    """A signal at each call of a command that reads, of a list with its rows, or of an exchange with nothing to carry: it
    reads again, and prints the same. A listing is made again. No signal lets a command write in a folder of Git."""
    count, faults = 0, []
    room, bug = with_bug(program, above)
    subprocess.run(["git", "init", "-q", "work"], cwd=room.top, check=True)
    exchanges = [["f", "push", "p"], ["p", "fetch", "o", "f"]]
    for words in exchanges:
        made(room, words)
    reads = [["f", "users"], ["f", "show", bug], ["f", "log", bug]]
    lists = [["f", "ls"], ["f", "board"]]
    for words in [*reads, *lists, *exchanges, ["work/.git", *NEW[1:]], ["f", "push", "work/.git"]]:
        wanted = room.run(words)
        for call, number in moments_in(counts_of(room.trace(words)[2])):
            if call == "close":
                continue
            found = room.trace(words, "-e", f"inject={call}:error=EINTR:when={number}")[:2]
            if found != wanted:
                faults.append(f"{words[1]} with EINTR at {call} {number}: {found}")
            count += 1
    room.close()
    return count, faults, "signals in commands that write nothing"


def explained(program, above):
    """What standard error says, for people: a line of what cannot be done, where, and what the system said."""
    room, bug = with_bug(program, above)
    run = lambda words, before=(), **how: subprocess.run([*before, program, *words], cwd=room.top, **{"capture_output": True, **how})
    trace = ["strace", "-f", "-qq", "-o", "/dev/null", "-e"]
    users = ["f", "users"]
    for words in (["git", "init", "-q", "work"], ["git", "init", "-q", "--bare", "bare"]):
        subprocess.run(words, cwd=room.top, check=True)
    room.p.mkdir()
    (room.p / "refs").symlink_to(room.f / "refs")
    lines = room.trace(users)[2]
    opened, got = counts_of(lines)["before openat"] + 2, seed_call(lines)
    cases = [
        (2, "  gitbug FOLDER comment ID MESSAGE", run(["--help"])),
        (2, "gitbug 0", run(["--version"])),
        (2, "gitbug: comment takes ID MESSAGE", run(["f", "comment", bug])),
        (0, "gitbug: g does not exist; it is read as a folder with nothing in it", run(["g", "users"])),
        (3, r"gitbug: f/\S+ cannot be \w+: Permission denied", run(users, [*trace, f"inject=openat:error=EACCES:when={opened}"])),
        (3, r"gitbug: f/\S+ cannot be written: No space left on device", run(EDIT, [*trace, "inject=rename:error=ENOSPC:when=1"])),
        (3, r"gitbug: \S+ cannot be synced: Input/output error", run(EDIT, [*trace, "inject=fsync:error=EIO:when=5"])),
        (5, "gitbug: standard output cannot be written: No space left on device", run(users, stdout=open("/dev/full", "wb"), capture_output=False, stderr=subprocess.PIPE)),
        (6, "gitbug: random bytes cannot be had: Function not implemented", run(users, [*trace, f"inject=getrandom:error=ENOSYS:when={got}"])),
        (6, "gitbug: the arguments cannot be read: ", run([b"\xff"])),
        (6, "gitbug: work/.git is Git's own, and nothing was written", run(["work/.git", *NEW[1:]])),
        (6, "gitbug: work/.git/objects is Git's own, and nothing was written", run(["work/.git/objects", *NEW[1:]])),
        (6, "gitbug: bare is Git's own, and nothing was written", run(["bare", *NEW[1:]])),
        (6, "gitbug: work/.git is Git's own, and what Git wrote there cannot be read", run(["work/.git", "ls"])),
        (2, "gitbug: fetch takes REMOTE PEER", run(["f", "fetch", "o"])),
        (0, "gitbug: g does not exist; it is read as a folder with nothing in it", run(["f", "fetch", "o", "g"])),
        (3, "gitbug: p/refs cannot be entered: it is a link, and links are not followed", run(["f", "fetch", "o", "p"])),
        (3, "gitbug: p/refs cannot be entered: it is a link, and links are not followed", run(["f", "push", "p"])),
        (6, "gitbug: work/.git is Git's own, and nothing was written", run(["f", "push", "work/.git"])),
    ]
    faults = []
    for status, said, ran in cases:
        if ran.returncode != status or not re.search("^" + said, ran.stderr.decode(), re.MULTILINE):
            faults.append(f"status {ran.returncode} and not {status}, and not {said!r}: {ran.stderr.decode()[:200]!r}")
    for folder in ("work", "bare"):
        checked = subprocess.run(["git", "fsck"], cwd=room.top / folder, capture_output=True, text=True)
        if checked.returncode or "error" in checked.stderr:
            faults.append(f"git fsck in {folder}: {checked.stderr}")
    room.close()
    return len(cases), faults, "lines on standard error"


def pairs(program, above, rounds):
    """Two programs at once."""
    faults = []
    for _ in range(rounds):
        room = Room(program, above)
        ends = both(room, [["f", "user-new", "Ana", "a@x"], ["f", "user-new", "Bo", "b@x"]])
        faults += judged(room, ends, lambda persons, ids: all(persons.get(one) == 1 for one in ids))
        me = ends[0][1] or with_person(room)
        versions = room.persons()[room.f.joinpath("git-bug/user").read_text().strip()]
        ends = both(room, [["f", "user-edit", "Ana", "c@x"], ["f", "user-edit", "Bo", "d@x"]])
        faults += judged(room, ends, lambda persons, ids: persons.get(ids[0]) == versions + 2)
        room.close()
    return 2 * rounds, faults, "pairs"


def both(room, commands):
    running = [
        subprocess.Popen([room.program, *words], cwd=room.top, stdout=subprocess.PIPE, stderr=subprocess.DEVNULL)
        for words in commands
    ]
    texts = [one.communicate(timeout=3 * LOCK_WAIT)[0].decode().strip() for one in running]
    return [(one.returncode, text) for one, text in zip(running, texts)]


def held(program, above):
    """A lock that another program holds for ever: who reads goes on beside a reader, all others end with status 3."""
    faults = []
    log = ["f", "log", "0" * 64]
    for kind, words, wanted in ((fcntl.LOCK_SH, log, 1), (fcntl.LOCK_SH, EDIT, 3), (fcntl.LOCK_EX, log, 3)):
        room = Room(program, above)
        with_person(room)
        folder = os.open(room.f, os.O_RDONLY)
        fcntl.flock(folder, kind)
        begin = time.monotonic()
        status, text = room.run(words, timeout=3 * LOCK_WAIT)
        print(f"  {words[1]} ends with {status} after {time.monotonic() - begin:.1f} s")
        if status != wanted or (status == 3 and text):
            faults.append(f"{words[1]}: status {status} and not {wanted}")
        os.close(folder)
        room.close()
    return 3, faults, "locks held by another program"


def judged(room, ends, stands):
    try:
        if [status for status, _ in ends] != [0, 0]:
            return [f"a pair ends with {ends}"]
        if not stands(room.persons(), [text for _, text in ends]):
            return ["an edit that was acknowledged is lost"]
    except Unsound as fault:
        return [f"a pair leaves an unsound folder: {fault}"]
    return []


def signals(program, above):
    """A pipe that nobody reads, a disk that takes nothing, and a limit of a file's size, as the launcher has it ignored."""
    faults = []
    room = Room(program, above)
    with_person(room)
    reader, writer = os.pipe()
    os.close(reader)
    cases = {
        "a closed pipe": (5, room.run(EDIT, stdout=writer)[0]),
        "a full device": (5, room.run(EDIT, stdout=open("/dev/full", "wb"))[0]),
    }
    limited = ["sh", "-c", 'trap "" XFSZ; ulimit -f 0; exec "$@"', "sh"]
    cases["a limit of a file's size"] = (3, room.run(EDIT, limited, stdout=subprocess.DEVNULL)[0])
    cases["no temporary file is left"] = (0, len(temporaries_in(room.f)))
    for case, (wanted, found) in cases.items():
        if wanted != found:
            faults.append(f"{case}: {found} and not {wanted}")
    room.close()
    return len(cases), faults, "ends"
