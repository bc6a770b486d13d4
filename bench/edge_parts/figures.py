"""What a command costs in calls of the system."""
import collections
import os
import re

from edge_parts.folders import EDIT, NEW
from edge_parts.rooms import Room, with_bug
from edge_parts.kills import edits_of


def price(program, above):
    """What a command costs in calls of the system."""
    print("| command | opens | looks | syncs of files | syncs of folders | all calls |\n|---|--:|--:|--:|--:|--:|")
    room, (other, bug) = Room(program, above), with_bug(program, above)
    log = ["f", "log", "0" * 64]
    rows = [("user-new, new folder", NEW), ("user-new", NEW), ("user-edit", EDIT), ("log of no bug", log)]
    begin, comment = edits_of(bug)[:2]
    edits = [("new", begin), ("comment, second commit", comment), ("show of two commits", ["f", "show", bug])]
    edits += [("ls of two bugs without rows", ["f", "ls"]), ("ls of two bugs", ["f", "ls"])]
    for place, (label, words) in [(room, row) for row in rows] + [(other, row) for row in edits]:
        figures = calls_of(place.trace(words, "-y")[2])
        print(f"| `{label}` | " + " | ".join(map(str, figures)) + " |")
    room.close()
    other.close()
    return len(rows) + len(edits), [], "commands priced"


def calls_of(lines):
    """How many opens, looks, syncs of files and of folders, and calls in all there are once the program has begun."""
    counts, folders, begun = collections.Counter(), 0, False
    for line in lines:
        begun = begun or "SIGPIPE" in line
        call = re.match(r"\d+ +(\w+)\(", line)
        if begun and call:
            counts[call.group(1)] += 1
            path = re.match(r"\d+ +fsync\(\d+<([^>]*)>", line)
            folders += bool(path and os.path.isdir(path.group(1)))
    looks = counts["statx"] + counts["newfstatat"] + counts["stat"] + counts["lstat"]
    return counts["openat"] + counts["open"], looks, counts["fsync"] - folders, folders, sum(counts.values())
