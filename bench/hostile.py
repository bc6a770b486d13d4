#!/usr/bin/env python3
"""What commands cost over folders that somebody made to cost much: how time and memory grow from n to 2n and 4n.

    bench/run --hostile [--part N] [--program FILE] [--cases NAME,..]
    bench/hostile.py ...                                              the same

Each case makes a folder of size n, 2n and 4n and runs some commands over it, such as `show`, `ls`, or a `fetch` into an
empty folder. A row gives the processor time and the peak memory at each size, and how both grew from each size to the
next one. A command may refuse the folder; then it should do so at once. Growth of more than 2.6 times is a fault where
a run takes more than 40 ms, or 16 MB of memory. The exit status is 1 where there is a fault, or a run ends by a signal.
`--part N` makes all sizes an Nth, for a build that is slow.
"""
import argparse
import base64
import collections
import hashlib
import json
import os
import pathlib
import resource
import shutil
import statistics
import subprocess
import sys
import tempfile

sys.dont_write_bytecode = True
BENCH = pathlib.Path(__file__).resolve().parent
sys.path.insert(0, str(BENCH))
import run_parts as bench

ROUNDS = 5
MOST_GROWTH = 2.6
# Below these a run's growth says little: the start of the program, and the noise of the machine.
LEAST_MS, LEAST_MB = 40, 16
WAIT = 600
MOST_BYTES, MOST_PACKED, MOST_COMMITS, MOST_OPS = 4_194_304, 16_777_216, 65_536, 4_096


# ---- folders by hand

def nonce(number):
    return base64.b64encode(number.to_bytes(20, "big")).decode()


def operation(number, kind, **members):
    """The text of an operation of this type. No two numbers give the same."""
    return json.dumps({"nonce": nonce(number), "timestamp": 1, "type": kind, **members}, separators=(",", ":"))


class Plain:
    """A folder that is written by hand."""

    def __init__(self, path):
        self.path, self.made = path, set()
        self.empty = self.put(b"blob", b"")

    def write(self, place, text):
        file = self.path / place
        if file.parent not in self.made:
            file.parent.mkdir(parents=True, exist_ok=True)
            self.made.add(file.parent)
        file.write_bytes(text)

    def put(self, kind, content):
        text = bench.object_text(kind, content)
        name = hashlib.sha1(text).hexdigest()
        self.write(bench.object_path(name), text)
        return name

    def person(self, name="Ana"):
        """The id of a person, whose ref is a file."""
        id, head = self.version(name)
        self.write(f"refs/identities/{id}", head.encode() + b"\n")
        return id

    def version(self, name, parents=()):
        said = {"email": "", "name": name, "nonce": nonce(0), "times": {}, "unix_time": 1, "version": 2}
        text = json.dumps(said, separators=(",", ":")).encode()
        tree = self.put(b"tree", bench.tree_content([(b"version", self.put(b"blob", text))]))
        return hashlib.sha256(text).hexdigest(), self.commit(tree, parents)

    def commit(self, tree, parents=()):
        lines = "".join(f"parent {it}\n" for it in parents)
        return self.put(b"commit", f"tree {tree}\n{lines}author a\ncommitter a\n\n".encode())

    def tree(self, edit, pack, is_root=False, more=()):
        entries = [(b"edit-clock-%d" % edit, self.empty), (b"ops", pack), (b"version-4", self.empty), *more]
        entries += [(b"create-clock-1", self.empty)] * is_root
        return self.put(b"tree", bench.tree_content(entries))

    def pack(self, author, ops):
        """The blob of a pack of operations, which are told by their texts."""
        return self.put(b"blob", ('{"author":{"id":"%s"},"ops":[%s]}' % (author, ",".join(ops))).encode())

    def step(self, author, ops, edit, parents):
        return self.commit(self.tree(edit, self.pack(author, ops), not parents), parents)

    def chain(self, author, packs):
        """A bug of a chain of commits, one for each list of operations. The first operation gives it its id."""
        head, id = (), None
        for edit, ops in enumerate(packs, 1):
            id = id or hashlib.sha256(ops[0].encode()).hexdigest()
            head = (self.step(author, ops, edit, head),)
        return self.bug(id, head[0])

    def bug(self, id, head):
        self.write(f"refs/bugs/{id}", head.encode() + b"\n")
        return id

    def user(self, id):
        self.write("git-bug/user", id.encode() + b"\n")


def create(title="t", **members):
    return operation(1, 1, title=title, message="", **members)


def in_packs(ops):
    """Operations in as few packs as hold them."""
    ops = list(ops)
    return [ops[at : at + MOST_OPS] for at in range(0, len(ops), MOST_OPS)]


# ---- the cases: each makes the folder `f` of a size, and gives the id of its bug

CASES = {}


def case(size, commands, name):
    """Puts a case into the table: its size n, and the commands that are run over it."""
    def taken(make):
        CASES[name] = (size, commands, make)
        return make
    return taken


ALL = ("show", "ls", "fetch")


@case(20_000, ALL, "one commit over n parents that are not there, with names that begin alike")
def missing_parents(folder, size):
    author = folder.person()
    names = [f"{'0' * 24}{at:016x}" for at in range(size)]
    first = create()
    return folder.bug(hashlib.sha256(first.encode()).hexdigest(), folder.step(author, [first], 2, names))


@case(20_000, ALL, "one commit with the same parent n times")
def same_parent(folder, size):
    author, first = folder.person(), create()
    root = folder.step(author, [first], 1, ())
    return folder.bug(hashlib.sha256(first.encode()).hexdigest(), folder.step(author, [], 2, [root] * size))


@case(262_144, ALL, "one commit of n parents, whose object is too large")
def too_many_parents(folder, size):
    author, first = folder.person(), create()
    root = folder.step(author, [first], 1, ())
    return folder.bug(hashlib.sha256(first.encode()).hexdigest(), folder.step(author, [], 2, [root] * size))


@case(5_000, ALL, "one merge of n commits over one root")
def wide(folder, size):
    author, first = folder.person(), create()
    root = folder.step(author, [first], 1, ())
    parents = [folder.step(author, [operation(at + 2, 7)], 2, [root]) for at in range(size)]
    return folder.bug(hashlib.sha256(first.encode()).hexdigest(), folder.step(author, [], 3, parents))


@case(16_384, ALL, "n commits, each of which merges the two before it")
def ladder(folder, size):
    author, first = folder.person(), create()
    pack, id = folder.pack(author, []), hashlib.sha256(first.encode()).hexdigest()
    below = [folder.step(author, [first], 1, ())]
    below.append(folder.step(author, [operation(2, 7)], 2, below))
    for edit in range(3, size + 1):
        below = [below[-1], folder.commit(folder.tree(edit, pack), below)]
    return folder.bug(id, below[-1])


@case(4_096, ("merge", "pull", "push"), "n merges that both folders have, and one commit more in each")
def ladders(folder, size):
    id = ladder(folder, size)
    head = (folder.path / "refs/bugs" / id).read_text().strip()
    author = sorted(it.name for it in (folder.path / "refs/identities").iterdir())[0]
    folder.user(author)
    shutil.copytree(folder.path, folder.path.with_name("p"))
    other = Plain(folder.path.with_name("p"))
    for where, number in ((folder, 3), (other, 4)):
        where.bug(id, where.step(author, [operation(size + number, 7)], size + 1, [head]))
    return id


@case(9_000, ("show", "ls", "fetch", "pack-refs"), "n packed refs of bugs whose ids begin alike, each of a bad head")
def alike(folder, size):
    head = folder.version("Ana")[1]
    ids = [f"{'0' * 48}{at:016x}" for at in range(size)]
    folder.write("packed-refs", b"".join(b"%s refs/bugs/%s\n" % (head.encode(), it.encode()) for it in ids))
    return ids[0]


@case(95_000, ("show", "ls", "fetch", "users"), "n packed refs of other names")
def other_names(folder, size):
    folder.write("packed-refs", b"".join(b"%040d %x\n" % (at, at) for at in range(size))[:MOST_PACKED])
    return "0"


@case(250_000, ("show", "fetch"), "n packed refs of other names, from 2n on past the limit of the file")
def too_many_names(folder, size):
    folder.write("packed-refs", b"".join(b"%040d refs/%x\n" % (at, at) for at in range(size)))
    return "0"


@case(2_000_000, ("show", "fetch"), "n packed lines of one sign")
def comments(folder, size):
    folder.write("packed-refs", b"#\n" * size)
    return "0"


@case(36_000, ("show", "users", "fetch"), "one packed name n times")
def repeated_names(folder, size):
    head, id = folder.version("Ana")[1], "0" * 64
    folder.write("packed-refs", b"%s refs/bugs/%s\n" % (head.encode(), id.encode()) * size)
    return id


@case(25_000, ALL, "n labels of one length and beginning, in one operation")
def labels(folder, size):
    author = folder.person()
    added = [f"{'l' * 24}{at:08x}" for at in range(size)]
    return folder.chain(author, [[create()], [operation(2, 5, added=added, removed=[])]])


@case(25_000, ALL, "n labels, one in each operation, and then all off again")
def labels_apart(folder, size):
    author = folder.person()
    ops = [create()]
    ops += [operation(at + 2, 5, added=[f"{'l' * 24}{at:08x}"], removed=[]) for at in range(size // 2)]
    ops += [operation(at + size, 5, added=[], removed=[f"{'l' * 24}{at:08x}"]) for at in range(size // 2)]
    return folder.chain(author, in_packs(ops))


@case(10_000, ALL, "n comments and n edits, the first comment edited last")
def edits(folder, size):
    author, ops = folder.person(), [create()]
    ops += [operation(at + 2, 3, message="m") for at in range(size)]
    ids = [hashlib.sha256(it.encode()).hexdigest() for it in ops]
    ops += [operation(at + 2 + size, 6, message="e", target=ids[size - at]) for at in range(size)]
    return folder.chain(author, in_packs(ops))


@case(20_000, ALL, "n edits of one comment")
def edits_of_one(folder, size):
    author, first = folder.person(), create()
    target = hashlib.sha256(first.encode()).hexdigest()
    ops = [operation(at + 2, 6, message="e" * 20, target=target) for at in range(size)]
    return folder.chain(author, in_packs([first] + ops))


@case(20_000, ALL, "n keys of metadata that begin alike")
def metadata(folder, size):
    author, first = folder.person(), create()
    target = hashlib.sha256(first.encode()).hexdigest()
    said = lambda at: {"target": target, "new_metadata": {f"{'k' * 24}{at:08x}": "v"}}
    return folder.chain(author, in_packs([first] + [operation(at + 2, 8, **said(at)) for at in range(size)]))


@case(2_500, ALL, "n persons, each the author of one comment")
def authors(folder, size):
    people = [folder.person(f"P{at}") for at in range(size)]
    head, first = (), create()
    for edit, person in enumerate(people, 1):
        head = (folder.step(person, [first if edit == 1 else operation(edit, 3, message="m")], edit, head),)
    return folder.bug(hashlib.sha256(first.encode()).hexdigest(), head[0])


@case(1_000_000, ALL, "a title of n letters")
def long_title(folder, size):
    return folder.chain(folder.person(), [[create(title="a" * min(size, MOST_BYTES - 300))]])


@case(500_000, ("board", "ls", "show"), "a title of n marks that take no column")
def marks(folder, size):
    return folder.chain(folder.person(), [[create(title="a" + "\u0301" * min(size, 2_090_000))]])


def raw(folder, member):
    """A bug whose one operation has a member more, which is told by its text."""
    author = folder.person()
    text = create()[:-1] + ',"x":' + member + "}"
    return folder.chain(author, [[text]])


@case(1_000_000, ALL, "n open brackets")
def brackets(folder, size):
    return raw(folder, "[" * min(size, MOST_BYTES - 300))


@case(1_000_000, ALL, "n closed pairs of brackets in an array")
def pairs(folder, size):
    return raw(folder, "[" + ",".join(["[]"] * (min(size, MOST_BYTES - 400) // 3)) + "]")


@case(1_000_000, ALL, "n bytes of escapes in a text")
def escapes(folder, size):
    author, first = folder.person(), create()
    text = first.replace('"message":""', '"message":"%s"' % ("\\u0041" * (min(size, MOST_BYTES - 400) // 6)))
    return folder.chain(author, [[text]])


@case(1_000_000, ALL, "n bytes of white space in a pack")
def spaces(folder, size):
    author, first = folder.person(), create()
    pack = '{"author":{"id":"%s"},"ops":[%s%s]}' % (author, " " * min(size, MOST_BYTES - 400), first)
    tree = folder.tree(1, folder.put(b"blob", pack.encode()), True)
    return folder.bug(hashlib.sha256(first.encode()).hexdigest(), folder.commit(tree))


@case(1_000_000, ALL, "n bytes of members that nobody knows")
def members(folder, size):
    author = folder.person()
    more = "".join(',"m%07x":1' % at for at in range(min(size, MOST_BYTES - 400) // 13))
    return folder.chain(author, [[create()[:-1] + more + "}"]])


@case(10_000, ("fetch", "show"), "a tree of n entries that name one blob, and n that name one tree")
def entries(folder, size):
    author, first = folder.person(), create()
    more = [(b"zz%07x" % at, folder.empty) for at in range(size)]
    tree = folder.tree(1, folder.pack(author, [first]), True, more)
    return folder.bug(hashlib.sha256(first.encode()).hexdigest(), folder.commit(tree))


@case(4, ("fetch",), "n trees, each of which names the next one many times")
def trees(folder, size):
    author, first, depth = folder.person(), create(), min(size, 16)
    name = folder.put(b"tree", bench.tree_content([(b"end", folder.empty)]))
    for _ in range(depth):
        content = b"".join(b"40000 %04d\0" % at + bytes.fromhex(name) for at in range(1_000))
        name = folder.put(b"tree", content)
    clocks = [(b"create-clock-1", folder.empty), (b"edit-clock-1", folder.empty)]
    tree = bench.tree_content([*clocks, (b"ops", folder.pack(author, [first]))])
    tree += b"40000 sub\0" + bytes.fromhex(name) + b"100644 version-4\0" + bytes.fromhex(folder.empty)
    return folder.bug(hashlib.sha256(first.encode()).hexdigest(), folder.commit(folder.put(b"tree", tree)))


@case(10_000, ("fetch", "users"), "a person of n versions, all the same text")
def versions(folder, size):
    id, head = folder.version("Ana")
    tree = (folder.path / bench.object_path(head)).read_bytes().split(b"\0", 1)[1][5:45].decode()
    for _ in range(size - 1):
        head = folder.commit(tree, [head])
    folder.write(f"refs/identities/{id}", head.encode() + b"\n")
    return id


# ---- what a run costs

Cost = collections.namedtuple("Cost", "processor memory status")


def command_of(name, bug):
    """The words of a command over the folder of a case."""
    return {
        "show": ["f", "show", bug], "ls": ["f", "ls"], "board": ["f", "board"], "users": ["f", "users"],
        "fetch": ["t", "fetch", "o", "f"], "pack-refs": ["f", "pack-refs"], "push": ["f", "push", "t"],
        "pull": ["f", "pull", "o", "p"], "merge": ["f", "merge", "o"],
    }[name]


def renew(folder, name):
    """Brings the folders to where the command has all of its work to do again."""
    shutil.rmtree(folder / "t", ignore_errors=True)
    shutil.rmtree(folder / "f/git-bug/cache", ignore_errors=True)
    if name in ("pull", "merge", "pack-refs"):
        shutil.rmtree(folder / "f", ignore_errors=True)
        subprocess.run(["cp", "-r", str(folder / "kept"), str(folder / "f")], check=True)


def limited():
    """Has a run end by a signal that takes so long that nothing can be said of it."""
    resource.setrlimit(resource.RLIMIT_CPU, (WAIT, WAIT))


def run_once(folder, program, measure, words):
    how = {"cwd": folder, "capture_output": True, "text": True}
    done = subprocess.run([measure, program, *words], preexec_fn=limited, **how)
    _, processor, memory, status = map(int, done.stdout.split())
    return Cost(processor / 1e3, memory / 1024, status)


def cost_of(folder, program, measure, name, bug):
    """The least processor time and memory of some runs. The least has the least of what others do."""
    costs = []
    for _ in range(ROUNDS):
        renew(folder, name)
        if name == "merge":
            subprocess.run([program, "f", "fetch", "o", "p"], cwd=folder, stdout=subprocess.DEVNULL)
        costs.append(run_once(folder, program, measure, command_of(name, bug)))
    return Cost(min(it.processor for it in costs), statistics.median(it.memory for it in costs), costs[0].status)


def costs_of(above, program, measure, make, size, commands):
    """The cost of each command over a folder of this size."""
    with tempfile.TemporaryDirectory(dir=above) as place:
        folder = pathlib.Path(place)
        (folder / "f").mkdir()
        bug = make(Plain(folder / "f"), size)
        if {"pull", "merge", "pack-refs"} & {*commands}:
            subprocess.run(["cp", "-r", str(folder / "f"), str(folder / "kept")], check=True)
        return {name: cost_of(folder, program, measure, name, bug) for name in commands}


def growths(values, least):
    """How often more each size takes than the one before it; none where it is too little to say."""
    return [two / max(one, 0.001) if two >= least else None for one, two in zip(values, values[1:])]


def row_of(title, costs):
    """A row of the table, and whether it is a fault."""
    times, memory = [it.processor for it in costs], [it.memory for it in costs]
    grown = growths(times, LEAST_MS), growths(memory, LEAST_MB)
    show = lambda values: ", ".join("-" if it is None else f"{it:.2f}" for it in values)
    cells = [title, *(f"{it:,.1f}" for it in times), *(f"{it:,.1f}" for it in memory), *map(show, grown)]
    ends = sorted({it.status for it in costs})
    wrong = any(it is not None and it > MOST_GROWTH for side in grown for it in side) or not {*ends} <= {0, 1}
    return [*cells, ", ".join(map(str, ends)), "fault" if wrong else ""], wrong


HEAD = ["what", "ms at n", "at 2n", "at 4n", "MB at n", "at 2n", "at 4n", "ms grow", "MB grow", "status", ""]


def hostile(program, above, part=1, names=()):
    """Prints the table; how many rows there are, and how many are faults."""
    measure, rows, faults = bench.compiled("measure", pathlib.Path(above)), 0, 0
    print("|", " | ".join(HEAD), "|")
    print("|---" + "|--:" * (len(HEAD) - 1) + "|")
    for title, (size, commands, make) in CASES.items():
        if names and make.__name__ not in names:
            continue
        size = max(size // part, 2)
        found = [costs_of(above, program, measure, make, size * times, commands) for times in (1, 2, 4)]
        for name in commands:
            cells, wrong = row_of(f"`{name}`: {title}, n = {size:,}", [it[name] for it in found])
            print("|", " | ".join(cells), "|", flush=True)
            rows, faults = rows + 1, faults + wrong
    return rows, faults


def measure_all(program, part, cases):
    """Measures in a temporary folder; the exit status."""
    names = [it for it in cases.split(",") if it]
    with tempfile.TemporaryDirectory(prefix="gitbug-hostile-", dir=bench.place_with_room()) as above:
        rows, faults = hostile(program, above, part, names)
    print(f"\n{rows} rows, {faults} faults")
    return 1 if faults else 0


def main():
    take = argparse.ArgumentParser(description=__doc__, formatter_class=argparse.RawDescriptionHelpFormatter)
    take.add_argument("--program", help="another build of the program")
    take.add_argument("--part", type=int, default=1, help="all sizes are an Nth of what they are")
    take.add_argument("--cases", default="", help=", ".join(make.__name__ for _, _, make in CASES.values()))
    given = take.parse_args()
    sys.exit(measure_all(bench.program_path(given.program), given.part, given.cases))


if __name__ == "__main__":
    main()
