"""Exchanges, packed refs and merges, beside git."""
import collections
import hashlib
import re
import shutil
import subprocess
import sys

from run_parts.inputs import (
    Chain, EACH, EXCHANGED, Folders, LISTING, MERGED, MERGING, PACKED, ROUNDS, Row, comment_text,
    exchanged_text, lines, make_changed, put_bug, put_exchanged, put_person, run,
)
from run_parts.costs import cost_of, median


def make_exchanged(folder, commits):
    """A folder `f`, and a repository `g`, of bugs of so many commits by one person."""
    folder.mkdir()
    folders = Folders(folder)
    person, names = put_person(folders, 1, [200])
    put_exchanged(folders, "identities", person, names[-1])
    for bug in range(EXCHANGED):
        number, names, _ = put_bug(folders, commits, person, lambda number: exchanged_text(bug, number))
        put_exchanged(folders, "bugs", number, names[-1])
    return person


def exchange_rows(program, own):
    """What fetches from a folder and pushes it, and git's commands that do the same: `t` and `u` are where that goes."""
    git = own.replace("f", "g")
    every = "refs/*:refs/*"
    return {
        "fetch": ([program, "t", "fetch", "o", own], ["git", "--git-dir=tg", "fetch", "-q", f"./{git}", every]),
        "push": ([program, own, "push", "u"], ["git", f"--git-dir={git}", "push", "-q", "./ug", every]),
    }


def refs_read(chain, name, own):
    """The files of refs that an exchange of nothing new reads."""
    other = "t/refs/remotes/o" if name == "fetch" else "u/refs"
    found = [path for place in (f"{own}/refs", other) for path in sorted((chain.folder / place).glob("*/*")) if path.parent.name in ("bugs", "identities")]
    packed = [chain.folder / place / "packed-refs" for place in (own, other[0])]
    return [path.relative_to(chain.folder) for path in found + packed if path.is_file()]


def floor_row(chain, name, own, floor):
    (chain.folder / f"{name}-names").write_bytes(lines(str(path) for path in refs_read(chain, name, own)))
    return Row("floor", [floor, "--files", f"{name}-names"], 0, None)


def exchange_costs(folder, program, measure, floor):
    """Processor ms of a fetch and a push: of all bugs, of nothing new, of some bugs that changed, and of nothing new where the
    refs of all folders were packed by their own programs; and beside them git's, and for nothing new the floor's."""
    chain = Chain(EACH, folder / "exchanged", {}, [])
    make_changed(chain.folder, make_exchanged(chain.folder, EACH))
    found = collections.defaultdict(list)
    for _ in range(ROUNDS):
        empty_targets(chain)
        for what, own in (("all", "f"), ("nothing", "f"), ("changed", "f2"), ("nothing, packed", "f2")):
            if what == "nothing, packed":
                pack_refs(chain, program)
            for name, commands in exchange_rows(program, own).items():
                rows = [Row(name, command, 0, None) for command in commands]
                if floor and what.startswith("nothing"):
                    rows.append(floor_row(chain, name, own, floor))
                found[what, name].append([cost_of(row, chain, measure).processor for row in rows])
    return {key: list(map(median, zip(*costs))) for key, costs in found.items()}


def pack_refs(chain, program):
    """Packs the refs of folders and repositories, each by its program."""
    for name in ("f2", "t", "u"):
        run([program, name, "pack-refs"], chain.folder, stdout=subprocess.DEVNULL)
    for name in ("g2", "tg", "ug"):
        run(["git", f"--git-dir={name}", "pack-refs", "--all"], chain.folder)


def packed_costs(folder, program, measure):
    """What a list of many packed refs takes that looks for one of them, and what git's list takes of as many."""
    folder = folder / "packed"
    folders = Folders(folder)
    _, names = put_person(folders, 1, [200])
    refs = sorted(f"refs/bugs/{hashlib.sha256(str(number).encode()).hexdigest()}" for number in range(PACKED))
    text = "".join(f"{names[-1]} {ref}\n" for ref in refs)
    for place, head in ((folders.plain, ""), (folders.git, "# pack-refs with: peeled fully-peeled sorted \n")):
        (place / "packed-refs").write_text(head + text)
    chain = Chain(0, folder, {}, [])
    script = [program, "f", "show", "0" * 64]
    rows = [Row("gitbug", ["sh", "-c", '"$@" > /dev/null || true', "sh", *script], 0, None), Row("git", ["sh", "-c", f"{LISTING} refs/bugs > /dev/null"], 0, None)]
    return {row.label: median([cost_of(row, chain, measure).processor for _ in range(ROUNDS)]) for row in rows}


def quiet_cost(folder, program, measure, commits):
    """Processor ms of a fetch of nothing new, of bugs of so many commits."""
    chain = Chain(commits, folder / f"quiet-{commits}", {}, [])
    make_exchanged(chain.folder, commits)
    shutil.rmtree(chain.folder / "g")
    command, _ = exchange_rows(program, "f")["fetch"]
    costs = [cost_of(Row("fetch", command, 0, None), chain, measure).processor for _ in range(ROUNDS + 1)]
    shutil.rmtree(chain.folder)
    return median(costs[1:])


def make_diverged(folder, program):
    """Two folders `a/f` and `b/f` that share bugs, where each has a comment more on each bug and the first has fetched the
    second, and a script that merges the same commits in a repository `mg`. Returns the refs of the bugs."""
    folder.mkdir()
    heads = {}
    for name, more in (("a", 5), ("b", 7)):
        (folder / name).mkdir()
        folders = Folders(folder / name)
        person, names = put_person(folders, 1, [200])
        put_exchanged(folders, "identities", person, names[-1])
        (folders.plain / "git-bug").mkdir()
        (folders.plain / "git-bug/user").write_text(person + "\n")
        for bug in range(MERGED):
            text = lambda number: exchanged_text(bug, number) if number <= EACH else comment_text(64 * bug + more)
            number, names, below = put_bug(folders, EACH + 1, person, text)
            put_exchanged(folders, "bugs", number, names[-1])
            heads.setdefault(f"refs/bugs/{number}", []).append((names[-1], below[-2]))
    run([program, "a/f", "fetch", "o", "b/f"], folder, stdout=subprocess.DEVNULL)
    run(["git", "--git-dir=a/g", "fetch", "-q", "./b/g", "refs/bugs/*:refs/remotes/o/bugs/*"], folder)
    calls = [f"merge {ours} {theirs} {tree} {ref}\n" for ref, ((ours, tree), (theirs, _)) in heads.items()]
    (folder / "merge.sh").write_text(MERGING + "".join(calls))
    return list(heads)


def merge_costs(folder, program, measure):
    """Processor ms of a merge of bugs that have a commit more on either side, and of git's commands for the same commits; and
    whether a pull of nothing new opens no object."""
    chain = Chain(EACH, folder / "diverged", {}, [])
    refs = make_diverged(chain.folder, program)
    found = []
    for _ in range(ROUNDS):
        costs = []
        for command, source, target in (([program, "m", "merge", "o"], "a/f", "m"), (["sh", "merge.sh"], "a/g", "mg")):
            shutil.rmtree(chain.folder / target, ignore_errors=True)
            shutil.copytree(chain.folder / source, chain.folder / target)
            costs.append(cost_of(Row("merge", command, 0, None), chain, measure).processor)
            if any((chain.folder / target / ref).read_text() == (chain.folder / source / ref).read_text() for ref in refs):
                sys.exit(f"{command[0]}: a bug was not merged")
        found.append(costs)
    return list(map(median, zip(*found))), opens_no_object(chain, program) if shutil.which("strace") else None


def opens_no_object(chain, program):
    """Whether a pull of nothing new looks at no path of an object."""
    shutil.copytree(chain.folder / "b/f", chain.folder / "q")
    command, out = [program, "q", "pull", "o", "b/f"], chain.folder / "paths"
    run(command, chain.folder, stdout=subprocess.DEVNULL)
    run(["strace", "-f", "-e", "trace=%file", "-o", str(out), *command], chain.folder, capture_output=True)
    text = out.read_text()
    return "/refs/bugs/" in text and not re.search(r'(?:q|f)/objects/[0-9a-f]', text)


def empty_targets(chain):
    for name in ("t", "u", "tg", "ug"):
        shutil.rmtree(chain.folder / name, ignore_errors=True)
        if name.endswith("g"):
            run(["git", "init", "-q", "--bare", str(chain.folder / name)])


def packed_opens(folder, program):
    """The most times that one of many commands opens a file of packed refs, where all refs of two folders are packed."""
    folder = folder / "opened"
    folder.mkdir()
    said = lambda *words: run([program, *words], folder, capture_output=True).stdout.split()[-1]
    said("f", "user-new", "Ana", "a@x")
    bug = said("f", "new", "title", "message")
    for words in (["f", "push", "u"], ["f", "fetch", "o", "u"], ["f", "pack-refs"], ["u", "pack-refs"]):
        said(*words)
    of_bug = [["show", bug], ["log", bug], ["comment", bug, "x"], ["title", bug, "x"], ["close", bug]]
    others = [["users"], ["ls"], ["board"], ["user-edit", "Ann", "a@x"], ["merge", "o"], ["push", "u"], ["fetch", "o", "u"], ["pull", "o", "u"]]
    return max(opens_of_packed(folder, [program, "f", *words]) for words in of_bug + others)


def opens_of_packed(folder, command):
    """How many times a command opens the file of packed refs that it opens most."""
    run(["strace", "-f", "-e", "trace=open,openat", "-o", str(folder / "calls"), *command], folder, capture_output=True)
    opened = re.findall(r'"(\w)/packed-refs", O_RDONLY[^=]* = \d', (folder / "calls").read_text())
    return max(collections.Counter(opened).values(), default=0)
