"""The tables and the goals."""
from run_parts.inputs import (
    CHANGED, COPIED, EACH, EXCHANGED, FOLDED, FOLD_ROUNDS, JSON_ROUNDS, LONGER, MERGED, PACKED,
    ROUNDS, SHORT, SHOWN, TOP,
)
from run_parts.costs import median, usage_time


def table(head, rows):
    print("|", " | ".join(head), "|")
    print("|---" + "|--:" * (len(head) - 1) + "|")
    for row in rows:
        print("|", " | ".join(row), "|")
    print()


def number(value, form=",.1f"):
    return "" if value is None else format(value, form)


def ratios(costs, row):
    """The processor time for each object that is read, and the ratios."""
    found = [number(costs[row.label].processor * 1e3 / row.objects)]
    for other in ("git fsck", "floor"):
        found.append(number(costs[row.label].processor / costs[other].processor if other in costs else None, ".2f"))
    return found


RATIOS = ["processor µs an object", "processor, of git fsck's", "processor, of the floor's"]


def print_short(chain, costs, instructions, calls):
    print(f"{chain.commits:,} commits, {3 * chain.commits + 1:,} objects\n")
    rows = []
    for label, cost in costs.items():
        millions = instructions[label] / 1e6 if label in instructions else None
        counts = calls.get(label, [None] * 3)
        rows.append(
            [label, number(cost.wall), number(cost.processor), number(cost.memory), number(millions)]
            + [number(count, ",d") for count in counts]
            + ratios(costs, chain.rows[label])
        )
    head = ["", "wall ms", "processor ms", "peak MB", "M instructions", "opens", "reads", "all calls"]
    table([*head, *RATIOS], rows)


def print_json(speeds, size):
    print(f"{SHORT:,} operations of {size:.0f} bytes each, {JSON_ROUNDS} times\n")
    labels = {"split": "json_span: its members", "hash": "sha2: SHA-256", "value": "serde_json: a value"}
    table(["", "MB a second of processor time"], [[labels[task], number(speed)] for task, speed in speeds.items()])


def print_fold(times):
    print(f"A bug of {FOLDED:,} operations, {FOLD_ROUNDS} times\n")
    labels = {"fold": "bug_ops: read, and folded into a snapshot", "value": "serde_json: read as a value"}
    table(["", "ns an operation"], [[labels[task], number(time)] for task, time in times.items()])


def each_copied(costs, bugs):
    """Processor µs an object that is put."""
    return costs[bugs][-1] * 1e3 / costs[bugs][0]


def print_copies(costs, fetch):
    print("Bugs of four commits are copied in memory\n")
    rows = []
    for bugs, (objects, reads, millions, cost) in costs.items():
        git = fetch if bugs == COPIED[-1] else None
        ratio = None if git is None else cost / git
        counts = [number(objects, ",d"), number(reads, ",d"), number(millions)]
        each = number(each_copied(costs, bugs), ".2f")
        rows.append([f"{bugs:,} bugs", *counts, number(cost), each, number(git), number(ratio, ".3f")])
    growth = [many / few if few else None for few, many in zip(*(costs[bugs] for bugs in COPIED))]
    rows.append([f"{COPIED[-1]:,}, times {COPIED[0]:,}", *(number(times) for times in growth), "", "", ""])
    head = ["", "objects put", "object reads", "M instructions", "processor ms", "processor µs an object"]
    table([*head, "processor ms of git fetch", "ratio"], rows)


def print_persons(costs):
    print("The chain of the user, read whole by `user-edit`\n")
    rows = [
        [label, number(size / 1e6), number(reads, ",d"), number(millions), number(cost), number(cost * 1e6 / size)]
        for label, (size, reads, millions, cost) in costs.items()
    ]
    table(["", "MB in the folder", "object reads", "M instructions", "processor ms", "ns a byte of the folder"], rows)


def print_beside_git(title, found):
    print(f"{title}\n")
    rows = []
    for name, (costs, reads) in found.items():
        ours, git = costs["gitbug"], costs["git"]
        floor = costs["floor"].processor / git.processor if "floor" in costs else None
        ratio = number(ours.processor / git.processor, ".2f")
        rows.append([name, number(reads, ","), number(ours.wall), number(ours.processor, ",.2f"), number(git.processor, ",.2f"), ratio, number(floor, ".2f")])
    table(["", "object reads", "wall ms", "processor ms", "processor ms of git's commands", "ratio", "floor's ratio"], rows)


def print_grown(cost, reads):
    print(f"{CHANGED} of these bugs get a comment more, and are listed\n")
    table(["", "object reads", "wall ms", "processor ms"], [["ls with rows that grow", number(reads, ","), number(cost.wall), number(cost.processor, ",.2f")]])


def print_exchanges(costs):
    print(f"{EXCHANGED:,} bugs of {EACH} commits are exchanged, and {CHANGED} of them get one more\n")
    rows = []
    for (what, name), (ours, git, *floor) in costs.items():
        rows.append([f"{name}, {what}", number(ours), number(git), number(ours / git, ".2f"), number(floor[0] / git if floor else None, ".2f")])
    table(["", "processor ms", "processor ms of git's command", "ratio", "floor's ratio"], rows)


def print_packed(costs):
    print(f"A command looks among {PACKED:,} packed refs\n")
    ours, git = costs["gitbug"], costs["git"]
    table(["", "processor ms", "processor ms of git for-each-ref", "ratio"], [["show", number(ours), number(git), number(ours / git, ".2f")]])


def print_merges(costs):
    print(f"{MERGED} bugs of {EACH} commits, with one more on either side, are merged\n")
    table(["", "processor ms", "processor ms of git's commands", "ratio"], [["merge", *map(number, costs), number(costs[0] / costs[1], ".2f")]])


def print_long(chain, costs, short):
    print(f"{chain.commits:,} commits, {3 * chain.commits + 1:,} objects\n")
    rows = []
    for label, cost in costs.items():
        growth = [cost.wall / short[label].wall, cost.processor / short[label].processor]
        rows.append(
            [label, number(cost.wall), number(cost.processor), number(cost.memory)]
            + [number(times) for times in growth]
            + ratios(costs, chain.rows[label])
        )
    head = ["", "wall ms", "processor ms", "peak MB", "wall, times the short one's", "processor, times the short one's"]
    table([*head, *RATIOS], rows)


def print_goal(goal, found, most):
    if found is None:
        print(f"- {goal}: not measured (at most {most})")
    else:
        print(f"- {goal}: {found:.2f} (at most {most}): {'reached' if found <= most else 'NOT REACHED'}")


def print_goals(chain, short, once, long, speeds):
    program = short["gitbug log"]
    for other, most in (("git fsck", 0.35), ("floor", 2.5)):
        ratio = program.processor / short[other].processor if other in short else None
        print_goal(f"processor time over that of {other}, short chain", ratio, most)
        if ratio is not None and chain.rows[other].objects != chain.rows["gitbug log"].objects:
            each = ratio * chain.rows[other].objects / chain.rows["gitbug log"].objects
            print(f"- the same for each object that is read: {each:.2f}")
    if once is not None:
        print(f"- each object file opened once: {'reached' if once else 'NOT REACHED'}")
    if speeds:
        reached = "reached" if speeds["split"] >= 600 else "NOT REACHED"
        print(f"- MB a second of json_span: {speeds['split']:.0f} (at least 600): {reached}")
    if long:
        cost = long["gitbug log"]
        print_goal("wall time of the long chain over the short one's", cost.wall / program.wall, 25)
        print_goal("processor time of the long chain over the short one's", cost.processor / program.processor, 25)
        print_goal("peak memory in MB, long chain", cost.memory, 100)


def print_goals_beside_git(edits, shown, lists):
    comments = f"{SHOWN[0]:,} comments"
    goals = [("new", edits.get("new"), 0.2), ("comment", edits.get("comment"), 0.5)]
    goals.append((f"show of {comments}", shown.get(comments), 0.25))
    for what, most in (("without rows", 0.15), ("with rows", 0.8), ("with rows, packed", 0.8)):
        goals.append((f"ls of {EXCHANGED:,} bugs {what}", lists.get(f"ls {what}"), most))
    for name, found, most in goals:
        ratio = found[0]["gitbug"].processor / found[0]["git"].processor if found else None
        print_goal(f"processor time of {name} over that of git's commands", ratio, most)


def print_goal_of_copies(copies):
    ratio = each_copied(copies, COPIED[-1]) / each_copied(copies, COPIED[0]) if copies else None
    print_goal(f"processor time an object of a copy of {COPIED[-1]:,} bugs over that of {COPIED[0]:,}", ratio, 1.5)


def print_goals_of_exchanges(costs, quiet):
    for (what, name), (ours, git, *_) in costs.items():
        print_goal(f"processor time of {name} over that of git {name}: {what}", ours / git, {"all": 0.3, "changed": 0.2, "nothing": 0.1, "nothing, packed": 0.1}[what])
    if quiet:
        print_goal(f"processor time of a fetch of nothing new: bugs of {LONGER} commits over bugs of {EACH}", quiet[1] / quiet[0], 1.2)


def print_goals_of_merges(costs, opens_none):
    print_goal(f"processor time of a merge of {MERGED} bugs over that of git's commands", costs[0] / costs[1], 0.1)
    if opens_none is not None:
        print(f"- a pull of nothing new opens no object: {'reached' if opens_none else 'NOT REACHED'}")


def print_launcher(program):
    """What the script that starts the program adds to each call: medians of rounds of many calls each."""
    rounds = [usage_time(TOP / "gitbug") - usage_time(program) for _ in range(ROUNDS)]
    print_goal("processor ms that the launcher script adds to each call; no row has them", median(rounds), 2)
