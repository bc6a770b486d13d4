"""Kills and errors of the system, at each call of an edit or a list."""
import collections
import itertools

from edge_parts.folders import EDIT, NEW, Unsound, files_in, temporaries_in
from edge_parts.rooms import Room, counts_of, made, moments_in, moments_of, with_bug, with_person


def killed(program, above):
    """A kill at each call: the folder is sound, an edit is whole or absent, and the next run puts things right."""
    count, left, late, faults = 0, 0, 0, []
    for words, person in ((NEW, False), (EDIT, True)):
        for call, number in moments_of(program, above, words, person):
            room = Room(program, above)
            me = with_person(room) if person else None
            status, text, _ = room.trace(words, "-e", f"inject={call}:signal=KILL:when={number}")
            where = f"{words[1]} killed at {call} {number}"
            try:
                before = room.persons()
                left += bool(temporaries_in(room.top))
                late += status < 0 and bool(text)
                if text and before.get(text.strip()) != (2 if person else 1):
                    raise Unsound("what was printed is not there")
                if me and before.get(me) not in (1, 2):
                    raise Unsound("the identity is lost")
                again, text = room.run(words)
                if again != 0 or room.persons().get(text.strip()) is None:
                    raise Unsound(f"the next run ends with {again}")
                if me and room.persons()[me] != before[me] + 1:
                    raise Unsound("the next edit is lost")
            except Unsound as fault:
                faults.append(f"{where}: {fault}")
            count += 1
            room.close()
    print(f"  {left} of these kills left a temporary file; `remnants` says what becomes of them")
    print(f"  {late} of these kills came after the id was printed")
    return count, faults, "kills"


def edits_of(bug):
    """A command of each kind that edits bugs."""
    one = {
        "comment": ["Mine too"], "title": ["Login fails on Mondays"], "close": [], "noop": [],
        "label-add": ["b", "a"], "meta": ["key", "value"],
    }
    return [["f", "new", "Another", "Text"]] + [["f", name, bug, *words] for name, words in one.items()]


def bugs(program, above):
    """A kill and errors at each call of the commands on bugs: an edit is whole or absent, and the next one follows it."""
    count, faults = 0, []
    hurts = ["signal=KILL"] + [f"error={error}" for error in ("EIO", "ENOSPC", "EINTR")]
    room, bug = with_bug(program, above)
    commands = edits_of(bug)
    room.close()
    for index, hurt in itertools.product(range(len(commands)), hurts):
        room, bug = with_bug(program, above)
        counts = counts_of(room.trace(edits_of(bug)[index])[2])
        room.close()
        for call, number in moments_in(counts):
            if hurt != "signal=KILL" and call == "close":
                continue
            room, bug = with_bug(program, above)
            words = edits_of(bug)[index]
            fault = hurt_edit(room, bug, words, f"inject={call}:{hurt}:when={number}")
            if fault:
                faults.append(f"{words[1]} with {hurt} at {call} {number}: {fault}")
            count += 1
            room.close()
    return count, faults, "kills and errors in commands on bugs"


def hurt_edit(room, bug, words, inject):
    """What is wrong after a run that is hurt, and after the next."""
    status, text, _ = room.trace(words, "-e", inject)
    try:
        bugs = room.bugs()
        more = sum(bugs.values()) - 1
        if more not in (0, 1) or bug not in bugs or ((status == 0 or text) and more == 0):
            return f"status {status} with {more} commits more"
        if "EINTR" in inject and status != 0:
            return f"status {status}: it was not tried again"
        again, text = room.run(["f", "noop", bug])
        if again != 0 or room.bugs() != {**bugs, bug: bugs[bug] + 1}:
            return f"the next edit ends with {again}"
        if room.run(["f", "show", bug])[0] != 0:
            return "it is not shown"
    except Unsound as fault:
        return str(fault)
    return None


def lists(program, above, every=1):
    """A kill and errors at each call of a list of bugs whose rows are missing, or of older heads: nothing but rows changes,
    and the next list prints what a list prints that nothing disturbed, and leaves the same rows."""
    count, faults, ends = 0, [], collections.defaultdict(collections.Counter)
    hurts = ["signal=KILL"] + [f"error={error}" for error in ("EIO", "ENOSPC", "EINTR")]
    for words, has_rows in itertools.product((["f", "ls"], ["f", "board"]), (False, True)):
        before = before_list(program, above, has_rows)
        after, traced = before.copied(), before.copied()
        wanted, old = after.run(words), files_in(before.f)
        tries = itertools.product(hurts, list(moments_in(counts_of(traced.trace(words)[2]))))
        for hurt, (call, number) in [(hurt, at) for hurt, at in tries if "KILL" in hurt or at[0] != "close"][::every]:
            room = before.copied()
            ended = room.trace(words, "-e", f"trace={call}", "-e", f"inject={call}:{hurt}:when={number}")[:2]
            ends[hurt][ended[0]] += 1
            fault = end_fault(hurt, ended, wanted) or list_fault(room, words, wanted, old, files_in(after.f))
            if fault:
                over = "older rows" if has_rows else "no rows"
                faults.append(f"{words[1]} over {over} with {hurt} at {call} {number}: {fault}")
            count += 1
            room.close()
        for room in (before, after, traced):
            room.close()
    for hurt, counts in ends.items():
        print(f"  {hurt}: " + ", ".join(f"status {status} {times} times" for status, times in sorted(counts.items())))
    return count, faults, "kills and errors in lists"


def before_list(program, above, has_rows):
    """A room with three bugs. Where they have rows, two of them went on since."""
    room, bug = with_bug(program, above)
    other = made(room, ["f", "new", "Another", "Text"])
    made(room, ["f", "new", "A third", "Text"])
    if has_rows:
        made(room, ["f", "ls"])
    made(room, ["f", "label-add", bug, "needs info", "linux"])
    made(room, ["f", "close", other])
    return room


def end_fault(hurt, ended, wanted):
    """What is wrong with how a list ended that was hurt."""
    (status, text), (_, whole) = ended, wanted
    if "EINTR" in hurt and status != 0:
        return f"status {status}: it was not tried again"
    if "KILL" not in hurt and status not in (0, 3, 5, 6):
        return f"status {status}"
    return f"it prints {text!r}" if text != whole and (text or status == 0) else None


def list_fault(room, words, wanted, old, new):
    """What is wrong in a folder in which a list was hurt, and after the next list."""
    now = files_in(room.f)
    for path in {**old, **now}:
        if now.get(path) not in (old.get(path), new.get(path)):
            return f"{path} is neither as before nor as after"
    again = room.run(words)
    if again != wanted:
        return f"the next list ends with {again}"
    if files_in(room.f) != new or temporaries_in(room.top):
        return "the next list leaves other files"
    return None


def torn_rows(program, above, every=1):
    """Each row file ends at each place, or has zero bytes from there on, as a power cut may leave it: a list prints the
    same, and stores the row again."""
    count, faults = 0, []
    room = before_list(program, above, False)
    wanted = {name: room.run(["f", name]) for name in ("ls", "board")}
    files = files_in(room.f)
    for path, text in files.items():
        torn = [text[:at] + rest for at in range(len(text)) for rest in (b"", bytes(len(text) - at))]
        for name, left in list(itertools.product(wanted, torn if "/cache/" in path else []))[::every]:
            (room.f / path).write_bytes(left)
            if room.run(["f", name]) != wanted[name] or files_in(room.f) != files:
                faults.append(f"{name} over {left!r} at {path}")
            count += 1
    room.close()
    return count, faults, "lists over rows that are torn"
