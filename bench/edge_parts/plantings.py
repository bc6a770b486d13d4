"""Strangers' links and pipes."""
import itertools
import os
import shutil
import socket
import subprocess

from edge_parts.folders import EDIT
from edge_parts.rooms import Room, with_bug, with_person


def planted(program, above):
    """Links, pipes, sockets and folders at each place of a file and of a folder."""
    count, faults = 0, []
    room = Room(program, above)
    with_person(room)
    room.run(EDIT)
    places = ["f"] + sorted("f/" + str(path.relative_to(room.f)) for path in room.f.rglob("*"))
    head = next(path for path in places if "identities/" in path)
    room.close()
    places += ["f/git-bug/.gitbug-0", "f/refs/identities/.gitbug-3"]
    for index in range(len(places)):
        for kind in ("link", "dangling", "to folder", "pipe", "socket", "folder"):
            for name in ("user-new", "user-edit", "user-set", "log"):
                room = Room(program, above)
                me = with_person(room)
                room.run(EDIT)
                here = sorted(room.f.rglob("*"))
                own = ["f"] + ["f/" + str(path.relative_to(room.f)) for path in here] + places[-2:]
                place = room.top / (own[index] if index < len(own) else own[-1])
                plant(room, place, kind)
                words = ["f", name] + {"user-set": [me], "log": [me]}.get(name, ["Eva", "e@x"])
                problem = problem_of(room, words)
                if problem:
                    faults.append(f"{kind} at {place.relative_to(room.top)}, {name}: {problem}")
                count += 1
                room.close()
    return count, faults, "plantings"


def planted_bugs(program, above):
    """The same in a folder with a bug of two commits, before commands on bugs."""
    count, faults = 0, []
    first, bug = with_bug(program, above)
    first.run(["f", "comment", bug, "Mine too"])
    first.run(["f", "ls"])
    places = ["f"] + ["f/" + str(path.relative_to(first.f)) for path in sorted(first.f.rglob("*"))]
    commands = [["new", "A", "B"], ["comment", bug, "Text"], ["close", bug], ["label-add", bug, "a"]]
    commands += [["show", bug], ["log", bug], ["ls"], ["board"]]
    for place, kind in itertools.product(places, ("link", "dangling", "to folder", "pipe", "socket", "folder")):
        for words in commands:
            room = Room(program, above)
            shutil.copytree(first.f, room.f)
            plant(room, room.top / place, kind)
            problem = problem_of(room, ["f", *words])
            if problem:
                faults.append(f"{kind} at {place}, {words[0]}: {problem}")
            count += 1
            room.close()
    first.close()
    return count, faults, "plantings before commands on bugs"


def plant(room, place, kind):
    outside = room.top / "outside"
    outside.mkdir()
    (outside / "victim").write_text("kept")
    (outside / "folder").mkdir()
    if place.is_dir() and not place.is_symlink():
        shutil.rmtree(place)
    elif place.exists():
        place.unlink()
    place.parent.mkdir(parents=True, exist_ok=True)
    if kind == "link":
        place.symlink_to(outside / "victim")
    elif kind == "dangling":
        place.symlink_to(outside / "new")
    elif kind == "to folder":
        place.symlink_to(outside / "folder")
    elif kind == "pipe":
        os.mkfifo(place)
    elif kind == "socket":
        with socket.socket(socket.AF_UNIX) as made:
            here = os.getcwd()
            os.chdir(place.parent)
            try:
                made.bind(place.name)
            finally:
                os.chdir(here)
    else:
        place.mkdir()


def problem_of(room, words):
    """What a run does that it must not, with something planted."""
    outside = room.top / "outside"
    try:
        status, _ = room.run(words)
    except subprocess.TimeoutExpired:
        return "it waits"
    if status not in (0, 1, 3):
        return f"status {status}"
    # The folder that the words name may be a link, since a person wrote the word.
    named = (room.top / "f").is_symlink()
    left = sorted(str(path.relative_to(outside)) for path in outside.rglob("*"))
    if (outside / "victim").read_text() != "kept" or (left != ["folder", "victim"] and not named):
        return "it wrote outside of its folder"
    return None
