"""JSON, folds, persons, edits and shown bugs."""
import collections
import hashlib
import itertools
import shutil
import statistics
import sys

from run_parts.inputs import (
    COMMENTED, COPIED, Chain, Cost, FETCH, FOLDED, FOLD_ROUNDS, JSON_ROUNDS, PERSONS, PLUMBING,
    ROUNDS, Row, SHORT, SHOWN, make_chain, make_copied, make_person, make_shown, operation_text,
    prose, run,
)
from run_parts.costs import check_rows, cost_of, costs_of, instructions_of, median, object_reads_of


def json_speeds(folder, program, measure):
    """Megabytes in a second of processor time over the operations of the short chain, for each thing that is done."""
    texts = [operation_text(number) for number in range(1, SHORT + 1)]
    (folder / "texts").write_bytes(b"".join(text + b"\n" for text in texts))
    size = sum(map(len, texts)) * JSON_ROUNDS / 1e6
    chain = Chain(SHORT, folder, {}, [])
    found = collections.defaultdict(list)
    for _ in range(ROUNDS):
        for task in ("split", "hash", "value"):
            row = Row(task, [program, "texts", task, str(JSON_ROUNDS)], SHORT, None)
            found[task].append(size / (cost_of(row, chain, measure).processor / 1e3))
    return {task: median(speeds) for task, speeds in found.items()}, sum(map(len, texts)) / SHORT


def fold_times(folder, program, measure):
    """Nanoseconds an operation of a bug of so many: read and folded into a snapshot, and read as a value alone."""
    texts = [operation_text(number) for number in range(1, FOLDED + 1)]
    (folder / "bug").write_bytes(b"".join(text + b"\n" for text in texts))
    chain = Chain(FOLDED, folder, {}, [])
    found = collections.defaultdict(list)
    for _ in range(ROUNDS):
        for task in ("fold", "value"):
            row = Row(task, [program, "bug", task, str(FOLD_ROUNDS)], FOLDED, None)
            found[task].append(cost_of(row, chain, measure).processor * 1e6 / (FOLDED * FOLD_ROUNDS))
    return {task: median(times) for task, times in found.items()}


def person_costs(folder, program, measure):
    """What `user-edit` takes over each chain of versions, from the same head each time."""
    found = {}
    for place, (label, (commits, sizes)) in enumerate(PERSONS.items()):
        here = folder / f"person-{place}"
        here.mkdir()
        ref, head, size = make_person(here, commits, sizes)
        row = Row(label, [program, "f", "user-edit", "Ana", "a@x"], commits, "")
        chain = Chain(commits, here, {}, [])

        def from_the_head(measured, *words):
            ref.write_text(head + "\n")
            return measured(*words)

        cost = statistics.median(from_the_head(cost_of, row, chain, measure).processor for _ in range(ROUNDS))
        reads = from_the_head(object_reads_of, row, chain) if shutil.which("strace") else None
        instructions = from_the_head(instructions_of, row, chain) / 1e6 if shutil.which("valgrind") else None
        found[label] = size, reads, instructions, cost
    return found


def edit_costs(folder, program, measure):
    """What `new` and `comment` take, and git's commands that make as many objects and a ref, from the same folder each time."""
    folder = folder / "edits"
    folder.mkdir()
    chain = make_chain(COMMENTED, folder, {"gitbug": program, "floor": None})
    bug = chain.rows["gitbug log"].command[3]
    author = hashlib.sha256(b"%d" % COMMENTED).hexdigest()
    (folder / "f/git-bug").mkdir(exist_ok=True)
    (folder / "f/git-bug/user").write_text(author + "\n")
    ref = folder / "f/refs/bugs" / bug
    head = ref.read_text()
    pack = folder / "pack"
    text = operation_text(2).decode()
    found = {}
    for name, words, parent, git_ref in (
        ("new", ["new", prose(1, 60), prose(1, 440)], "", "refs/bugs/one"),
        ("comment", ["comment", bug, prose(2, 105)], f"-p {head.strip()}", "refs/bugs/two"),
    ):
        script = folder / f"{name}.sh"
        script.write_text(f"PARENT='{parent}' REF={git_ref}\nexport GIT_AUTHOR_NAME=a GIT_AUTHOR_EMAIL=a GIT_COMMITTER_NAME=a GIT_COMMITTER_EMAIL=a\nexec < pack\n{PLUMBING}")
        costs = {"gitbug": [], "git": []}
        for number in range(ROUNDS):
            ref.write_text(head)
            costs["gitbug"].append(cost_of(Row(name, [program, "f", *words], 0, ""), chain, measure))
            pack.write_text('{"author":{"id":"%s"},"ops":[%s]}' % (author, text.replace("timestamp", f"time{number}{name}")))
            costs["git"].append(cost_of(Row(name, ["sh", str(script)], 0, ""), chain, measure))
        ref.write_text(head)
        reads = object_reads_of(Row(name, [program, "f", *words], 0, ""), chain) if shutil.which("strace") else None
        found[name] = {label: Cost(*map(median, zip(*of))) for label, of in costs.items()}, reads
    return found


def show_costs(folder, program, measure):
    """What `show` takes, and git's commands that list the commits and read the same objects."""
    found = {}
    for comments in SHOWN:
        here = folder / f"shown-{comments}"
        here.mkdir()
        chain = make_shown(comments, here, program)
        check_rows(chain)
        reads = object_reads_of(chain.rows["gitbug"], chain) if shutil.which("strace") else None
        found[f"{comments:,} comments"] = costs_of(chain, measure), reads
    return found


def copy_costs(folder, program, measure):
    """Of a copy of so many bugs in memory: the objects put, the reads of objects, millions of instructions and processor ms."""
    chain = Chain(0, folder, {}, [])
    counted = {}
    for bugs in COPIED:
        counts = [int(run([program, task, str(bugs)], capture_output=True).stdout) for task in ("build", "copy", "reads")]
        if counts[0] != counts[1]:
            sys.exit(f"speed: {counts[1]} of {counts[0]} objects were copied")
        counted[bugs] = counts[1:]
    found = collections.defaultdict(list)
    for _ in range(ROUNDS):
        for bugs, task in itertools.product(COPIED, ("build", "copy")):
            row = Row(task, [program, task, str(bugs)], 0, None)
            found[bugs, task].append(cost_of(row, chain, measure).processor)
    return {
        bugs: (*counted[bugs], copy_instructions(chain, program, bugs), median(found[bugs, "copy"]) - median(found[bugs, "build"]))
        for bugs in COPIED
    }


def copy_instructions(chain, program, bugs):
    """Millions of instructions of a copy: those of making the bugs and copying them less those of making them."""
    if not shutil.which("valgrind"):
        return None
    made, copied = (instructions_of(Row(task, [program, task, str(bugs)], 0, None), chain) for task in ("build", "copy"))
    return (copied - made) / 1e6


def fetch_cost(folder, measure):
    """Processor ms of `git fetch` of the most bugs from a local folder of loose objects into one with nothing in it."""
    folder = folder / "copied"
    folder.mkdir()
    make_copied(COPIED[-1], folder)
    chain, row = Chain(0, folder, {}, []), Row("git fetch", FETCH, 0, None)
    return median([from_nothing(row, chain, measure) for _ in range(ROUNDS)])


def from_nothing(row, chain, measure):
    """Processor ms of a row over an empty repository `t`."""
    target = chain.folder / "t"
    shutil.rmtree(target, ignore_errors=True)
    run(["git", "init", "-q", "--bare", str(target)])
    cost = cost_of(row, chain, measure).processor
    refs = run(["git", "--git-dir=t", "for-each-ref", "--format=%(refname)"], chain.folder, capture_output=True)
    if len(refs.stdout.splitlines()) != COPIED[-1]:
        sys.exit("git fetch: another number of refs than bugs")
    return cost
