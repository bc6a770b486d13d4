"""Kills and cuts of `pack-refs`."""
import collections

from edge_parts.folders import MARKS, files_in, refs_in, temporaries_in
from edge_parts.rooms import counts_of, made, moments_in, with_bug
from edge_parts.disks import Disk, decoded


PACK = ["f", "pack-refs"]


def before_pack(program, above):
    """A room with three bugs. The refs of two are packed, and one of these went on since."""
    room, bug = with_bug(program, above)
    made(room, ["f", "new", "Another", "Text"])
    made(room, PACK)
    made(room, ["f", "new", "A third", "Text"])
    made(room, ["f", "close", bug])
    return room


def packs(program, above, every=1):
    """A kill and errors at each call of a pack of the refs: each ref keeps its head, and the next pack leaves the files that one
    leaves which nothing disturbs."""
    count, faults, ends = 0, [], collections.defaultdict(collections.Counter)
    before = before_pack(program, above)
    after, traced = before.copied(), before.copied()
    made(after, PACK)
    new, tries = files_in(after.f), list(moments_in(counts_of(traced.trace(PACK)[2])))
    for hurt in ["signal=KILL"] + [f"error={error}" for error in ("EIO", "ENOSPC", "EINTR")]:
        for call, number in [at for at in tries if "KILL" in hurt or at[0] != "close"][::every]:
            room = before.copied()
            status = room.trace(PACK, "-e", f"trace={call}", "-e", f"inject={call}:{hurt}:when={number}")[0]
            ends[hurt][status] += 1
            fault = pack_fault(room, hurt, status, refs_in(new), new)
            if fault:
                faults.append(f"{hurt} at {call} {number}: {fault}")
            count += 1
            room.close()
    for room in (before, after, traced):
        room.close()
    for hurt, counts in ends.items():
        print(f"  {hurt}: " + ", ".join(f"status {status} {times} times" for status, times in sorted(counts.items())))
    return count, faults, "kills and errors in packs"


def pack_fault(room, hurt, status, heads, new):
    """What is wrong in a folder in which a pack was hurt, and after the next pack."""
    if "EINTR" in hurt and status != 0:
        return f"status {status}: it was not tried again"
    if "KILL" not in hurt and status not in (0, 3, 5, 6):
        return f"status {status}"
    if refs_in(files_in(room.f)) != heads:
        return "a ref has another head"
    again, _ = room.run(PACK)
    if again != 0 or files_in(room.f) != new or temporaries_in(room.top):
        return f"the next pack ends with {again}, or leaves other files"
    return None


def cut_packs(program, above):
    """A power cut after each call of a pack, which takes what it may: each ref keeps its head."""
    count, faults = 0, []
    room = before_pack(program, above)
    disk, heads = Disk(room.top), refs_in(files_in(room.f))
    disk.hold("f")
    for line in room.trace(PACK, *MARKS)[2]:
        if disk.apply(line):
            count += 1
            if refs_in(disk.left("f", lambda path: False)) != heads:
                faults.append(f"a cut after {decoded(line)[:90]!r}: a ref has another head")
    room.close()
    return count, faults, "power cuts in a pack"
