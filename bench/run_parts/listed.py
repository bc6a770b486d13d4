"""Lists of bugs."""
import os
import shutil
import subprocess

from run_parts.inputs import (
    Chain, Cost, EACH, EXCHANGED, Folders, LISTING, LISTING_ALL, ROUNDS, Row, batch_text,
    copied_text, lines, make_changed, prose, put_bug, put_exchanged, put_person, run,
)
from run_parts.costs import check_rows, cost_of, median, object_reads_of


def make_listed(folder, program):
    """Bugs of one person in `f` and `g`, and the rows that list them: the program without stored rows and with them, and
    git's commands."""
    folder.mkdir()
    folders = Folders(folder)
    person, read = put_person(folders, 1, [200])
    heads, told = {f"refs/identities/{person}": read[-1]}, {}
    for bug in range(EXCHANGED):
        number, names, below = put_bug(folders, EACH, person, lambda number: copied_text(bug, number))
        heads[f"refs/bugs/{number}"] = names[-1]
        told[number] = f"{number[:7]}\topen\t{prose(8 * bug + 3, 60)}\tAna\t3\tlinux\tneeds review"
        read += [*reversed(names), *below]
    for ref, head in heads.items():
        put_exchanged(folders, *ref.split("/")[1:], head)
    (folder / "names").write_bytes(lines(read))
    text = lines(told[number] for number in sorted(told))
    refs = lines(f"{heads[ref]} commit\t{ref}" for ref in sorted(heads))
    objects = b"".join(batch_text(folder, name) for name in read)
    rows = [
        Row("ls without rows", [program, "f", "ls"], len(read), text),
        Row("git without rows", ["sh", "-c", LISTING_ALL], len(read), refs + objects),
        Row("ls with rows", [program, "f", "ls"], len(heads), text),
        Row("git with rows", ["sh", "-c", LISTING], len(heads), refs),
    ]
    return Chain(EACH, folder, {row.label: row for row in rows}, []), person


def make_grown(chain, person, program):
    """The listed bugs once more, in `f2`, some with a comment more than their stored rows have: the row that lists them, and these files."""
    make_changed(chain.folder, person)
    before, now = ({path.name: path.read_text() for path in (chain.folder / name / "refs/bugs").iterdir()} for name in ("f", "f2"))
    grown = [number for number in now if now[number] != before[number]]
    files = [chain.folder / "f2/git-bug/cache/bugs" / number for number in grown]
    short = {number[:7].encode() for number in grown}
    told = chain.rows["ls with rows"].expected.splitlines(True)
    told = [line.replace(b"\tAna\t3\t", b"\tAna\t4\t") if line[:7] in short else line for line in told]
    return Row("ls with rows that grow", [program, "f2", "ls"], 3 * len(grown), b"".join(told)), {file: file.read_bytes() for file in files}


def grown_costs(chain, person, program, measure):
    """What a list takes for which some stored rows grow by a comment; and how many objects it reads."""
    row, stale = make_grown(chain, person, program)
    check_rows(chain._replace(rows={row.label: row}))
    costs = []
    for _ in range(ROUNDS):
        restore(stale)
        costs.append(cost_of(row, chain, measure))
    restore(stale)
    return Cost(*map(median, zip(*costs))), object_reads_of(row, chain) if shutil.which("strace") else None


def restore(files):
    for file, content in files.items():
        file.write_bytes(content)


def list_costs(folder, program, measure, floor):
    """What a list takes that stores the row of each bug, and one for which each is stored; and git's commands, and the floors. And
    what one takes for which some grow. At last the refs are packed, by both programs."""
    chain, person = make_listed(folder / "listed", program)
    check_rows(chain)
    chain.rows.update(list_floors(chain, floor) if floor else {})
    found = {f"ls {what}": listed_costs(chain, what, measure) for what in ("without rows", "with rows")}
    grown = grown_costs(chain, person, program, measure)
    run([program, "f", "pack-refs"], chain.folder, stdout=subprocess.DEVNULL)
    run(["git", "--git-dir=g", "pack-refs", "--all"], chain.folder)
    found["ls with rows, packed"] = listed_costs(chain, "with rows", measure)
    return found, grown


def list_floors(chain, floor):
    """The files that a list without stored rows reads, each hashed, and as many rows put; and the files that one with rows reads."""
    objects = [f"f/objects/{name[:2]}/{name[2:]}" for name in (chain.folder / "names").read_text().split()]
    below = [f"f/{path}" for path in ("refs/bugs", "refs/identities", "git-bug/cache/bugs")]
    files = [f"{path}/{name}" for path in below for name in sorted(os.listdir(chain.folder / path))]
    bugs = sorted(os.listdir(chain.folder / "f/refs/bugs"))
    for name, found in (("list-objects", objects), ("list-files", files), ("list-rows", bugs)):
        (chain.folder / name).write_bytes(lines(found))
    (chain.folder / "rows").mkdir()
    return {
        "floor without rows": Row("floor", [floor, "--list", "list-objects", "list-rows", "rows"], 0, None),
        "floor with rows": Row("floor", [floor, "--files", "list-files"], 0, None),
    }


def listed_costs(chain, what, measure):
    """What a list takes, and git's commands, and the floor, while refs are files; and how many objects it reads."""
    rows = {"gitbug": chain.rows[f"ls {what}"], "git": chain.rows[f"git {what}"]}
    if f"floor {what}" in chain.rows and not (chain.folder / "f/packed-refs").exists():
        rows["floor"] = chain.rows[f"floor {what}"]
    costs = {label: [] for label in rows}
    for _ in range(ROUNDS):
        lose_rows(chain, what)
        for label, row in rows.items():
            costs[label].append(cost_of(row, chain, measure))
    lose_rows(chain, what)
    reads = object_reads_of(rows["gitbug"], chain) if shutil.which("strace") else None
    return {label: Cost(*map(median, zip(*of))) for label, of in costs.items()}, reads


def lose_rows(chain, what):
    if what == "without rows":
        shutil.rmtree(chain.folder / "f/git-bug/cache")
