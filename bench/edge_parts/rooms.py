"""A room of folders in which the program is run, and the calls that a run makes."""
import collections
import pathlib
import re
import shutil
import subprocess
import tempfile

from edge_parts.folders import CALLS, LATE, NEW, WAIT, bugs_in, files_in, persons_in


class Room:
    """An empty folder in which the program runs."""

    def __init__(self, program, above):
        self.program, self.top = program, pathlib.Path(tempfile.mkdtemp(dir=above))
        self.f, self.p = self.top / "f", self.top / "p"

    def run(self, words, before=(), **options):
        options = {"stdout": subprocess.PIPE, "stderr": subprocess.DEVNULL, "timeout": WAIT, **options}
        done = subprocess.run([*before, self.program, *words], cwd=self.top, **options)
        return done.returncode, (done.stdout or b"").decode()

    def trace(self, words, *more):
        """A run under strace: how it ended, and the lines of its calls."""
        log = self.top.parent / "trace"
        before = ["strace", "-f", "-qq", "-o", str(log), *more]
        status, text = self.run(words, before)
        return status, text, log.read_text(errors="replace").splitlines()

    def copied(self):
        """Another room with the same folders."""
        other = Room(self.program, self.top.parent)
        shutil.copytree(self.top, other.top, symlinks=True, dirs_exist_ok=True)
        return other

    def persons(self):
        return persons_in(files_in(self.f)) if self.f.exists() else {}

    def bugs(self):
        return bugs_in(files_in(self.f))

    def close(self):
        shutil.rmtree(self.top)


def with_person(room):
    status, text = room.run(NEW)
    assert status == 0, status
    return text.strip()


def counts_of(lines):
    """How often the program makes each call once it has begun."""
    counts, begun = collections.Counter(), False
    for line in lines:
        call = re.match(r"\d+ +(\w+)\(", line)
        begun = begun or "SIGPIPE" in line
        if call and call.group(1) in CALLS:
            counts[call.group(1)] += 1
            if not begun:
                counts["before " + call.group(1)] += 1
    return counts


def seed_call(lines):
    """The number of the call that gives a run its 32 random bytes. The C library may ask for others first, for its own use."""
    calls = [line for line in lines if re.match(r"\d+ +getrandom\(", line)]
    return 1 + next(at for at, line in enumerate(calls) if re.search(r", 32, \w+\) += 32$", line))


def moments_of(program, above, words, person):
    """Each call of a run, by its name and its number among the calls of that name."""
    room = Room(program, above)
    if person:
        with_person(room)
    counts = counts_of(room.trace(words)[2])
    room.close()
    yield from moments_in(counts)


def moments_in(counts):
    for call in CALLS:
        if counts[call]:
            for number in range(counts["before " + call] + 1, counts[call] + 1 + LATE):
                yield call, number


def with_bug(program, above):
    """A folder with the user and a bug of one commit, and the bug's id."""
    room = Room(program, above)
    with_person(room)
    status, text = room.run(["f", "new", "Login fails", "It says 500"])
    assert status == 0, status
    return room, text.strip()


def made(room, words):
    status, text = room.run(words)
    assert status == 0, (words, status)
    return text.strip()
