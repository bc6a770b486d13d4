"""What a command costs: time, memory, instructions and calls."""
import collections
import re
import resource
import statistics
import subprocess
import sys
import time

from run_parts.inputs import CALLS, Calls, Cost, ROUNDS, environment, make_chain, run


def checked_chain(commits, folder, tools):
    """A chain over which each row gives what it is to give, before anything is timed."""
    folder.mkdir()
    chain = make_chain(commits, folder, tools)
    check_rows(chain)
    return chain


def check_rows(chain):
    for row in chain.rows.values():
        done = subprocess.run(row.command, cwd=chain.folder, env=environment(), capture_output=True)
        if done.returncode != 0 or done.stdout != row.expected:
            said = done.stderr[:200].decode(errors="replace")
            sys.exit(f"{row.label}: another output than expected (status {done.returncode}) {said}")


def cost_of(row, chain, measure):
    if measure is None:
        return cost_without_memory(row, chain)
    done = run([measure, *row.command], chain.folder, capture_output=True)
    wall, processor, memory, status = map(int, done.stdout.split())
    if status != 0:
        sys.exit(f"{row.label}: status {status}")
    return Cost(wall / 1e6, processor / 1e3, memory / 1024)


def cost_without_memory(row, chain):
    """Where no C compiler is: the peak that the system tells would count this script's memory too."""
    before, begin = resource.getrusage(resource.RUSAGE_CHILDREN), time.perf_counter()
    run(row.command, chain.folder, stdout=subprocess.DEVNULL, stderr=subprocess.DEVNULL)
    wall, after = time.perf_counter() - begin, resource.getrusage(resource.RUSAGE_CHILDREN)
    used = after.ru_utime + after.ru_stime - before.ru_utime - before.ru_stime
    return Cost(wall * 1e3, used * 1e3, None)


def costs_of(chain, measure):
    """The median of each row's costs, where each round runs each row once."""
    found = {label: [] for label in chain.rows}
    for _ in range(ROUNDS):
        for label, row in chain.rows.items():
            found[label].append(cost_of(row, chain, measure))
    return {label: Cost(*map(median, zip(*costs))) for label, costs in found.items()}


def median(values):
    return None if None in values else statistics.median(values)


def instructions_of(row, chain):
    out = chain.folder / f"callgrind.{row.label.replace(' ', '-')}"
    command = ["valgrind", "--tool=callgrind", f"--callgrind-out-file={out}", *row.command]
    run(command, chain.folder, capture_output=True)
    return int(re.search(r"^(?:totals|summary): (\d+)", out.read_text(), re.MULTILINE).group(1))


def calls_of(row, chain):
    out = chain.folder / "calls"
    run(["strace", "-f", "-c", "-o", str(out), *row.command], chain.folder, capture_output=True)
    counts = collections.Counter()
    for line in out.read_text().splitlines():
        words = line.split()
        if len(words) >= 5 and words[3].isdigit():
            counts[words[-1]] += int(words[3])
    opens = counts["open"] + counts["openat"]
    reads = counts["read"] + counts["pread64"]
    return Calls(opens, reads, counts["total"])


def are_opened_once(row, chain):
    """Whether the program opens each file of a commit, its tree and its pack just once."""
    out = chain.folder / "opens"
    run(["strace", "-f", "-e", "trace=open,openat", "-o", str(out), *row.command], chain.folder, capture_output=True)
    opened = re.findall(r'"(f/objects/[^"]*)"', out.read_text())
    return sorted(opened) == sorted(chain.paths)


def object_reads_of(row, chain):
    """How many times a file of an object that stands is opened to be read."""
    out = chain.folder / "opens"
    run(["strace", "-f", "-e", "trace=open,openat", "-o", str(out), *row.command], chain.folder, capture_output=True)
    return len(re.findall(r'"(?:[^"]*/)?objects/\w\w/\w{38}", O_RDONLY[^=]* = \d', out.read_text()))


def usage_time(command):
    """Milliseconds of processor time of a call that prints the usage."""
    before = resource.getrusage(resource.RUSAGE_CHILDREN)
    for _ in range(CALLS):
        subprocess.run([command], stdout=subprocess.DEVNULL)
    after = resource.getrusage(resource.RUSAGE_CHILDREN)
    return (after.ru_utime + after.ru_stime - before.ru_utime - before.ru_stime) * 1e3 / CALLS
