"""The programs that are measured, and the machine."""
import os
import pathlib
import platform
import re
import shutil
import subprocess
import sys

from run_parts.inputs import BENCH, ROOM, TOP, run


def print_machine():
    memory = ""
    if os.path.exists("/proc/meminfo"):
        kilobytes = int(re.search(r"MemTotal: *(\d+)", pathlib.Path("/proc/meminfo").read_text()).group(1))
        memory = f", {kilobytes / 2**20:.0f} GB of memory"
    system = f"{platform.system()} {platform.release().split('-')[0]} on {platform.machine()}"
    versions = [version for version in map(version_of, ("git", "sha1sum", "cc")) if version]
    load = ", ".join(f"{load:.1f}" for load in os.getloadavg())
    print("; ".join([f"{os.cpu_count()} processors{memory}, {system}", *versions]))
    print(f"{load} processes at work or waiting for a processor in the last 1, 5 and 15 minutes\n")


def version_of(tool):
    if shutil.which(tool):
        return run([tool, "--version"], capture_output=True).stdout.splitlines()[0]
    return None


def program_path(given):
    """The program: the one given, or this repository's, which its launcher builds."""
    if given:
        return str(pathlib.Path(given).resolve())
    subprocess.run([TOP / "gitbug"], stdout=subprocess.DEVNULL)
    path = TOP / ".built/gitbug"
    if not path.exists():
        sys.exit("gitbug: the program could not be built")
    return str(path)


def speed_program():
    """The program that goes over operations, which is proved and built first if it has to be."""
    crate = TOP / "crates/speed"
    path = crate / "out/speed"
    if not path.exists() and shutil.which("rt"):
        words = ["rt", "run", "--", "data/texts", "split", "1"]
        subprocess.run(words, cwd=crate, stdout=subprocess.DEVNULL, stderr=subprocess.DEVNULL)
    return str(path) if path.exists() else None


def compiled(name, folder):
    if not shutil.which("cc"):
        return None
    run(["cc", "-O2", "-o", str(folder / name), str(BENCH / f"{name}.c")])
    return str(folder / name)


def place_with_room():
    """Memory where there is enough of it, or the usual place."""
    memory = "/dev/shm"
    if os.access(memory, os.W_OK) and shutil.disk_usage(memory).free > ROOM:
        return memory
    return None
