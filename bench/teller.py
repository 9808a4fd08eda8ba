"""Runs of whole scripts under the clock of the program check_runs: what scripts of bench/ share."""
import os
import subprocess
from collections import namedtuple

TOP = os.path.dirname(os.path.dirname(os.path.abspath(__file__)))
FOLDER = f"{TOP}/crates/check_runs"
PROGRAM = f"{FOLDER}/out/check_runs"

# A pause: its nanoseconds, what was logged before it, what it promoted, found dead, swept, moved and kept, and the free blocks after it.
Pause = namedtuple("Pause", "nanos logged promoted dead swept moved kept free")


def build():
    """Proves and builds the program, where it isn't."""
    subprocess.run("rt run -- -- run </dev/null >/dev/null", shell=True, cwd=FOLDER, check=True)


def script(*threads):
    """The script of these threads, each a list of lines."""
    lines = ["lxr 2", f"threads {len(threads)}"]
    for number, operations in enumerate(threads, 1):
        lines += [f"thread {number}", *operations, "end"]
    return ("\n".join(lines) + "\n").encode()


def looks(words, given):
    """The nanoseconds to the first operation, and the numbers of each look before and after a pause."""
    done = subprocess.run([PROGRAM, "times", "--", *words.split()], input=given, stdout=subprocess.PIPE, check=True)
    status, first, *lines = done.stdout.decode().splitlines()
    if status != "-- status 0":
        raise SystemExit(f"'{words}' ends with another status: {status}")
    return int(first.split()[2]), [[int(number) for number in line.split()] for line in lines]


def pauses(words, given):
    """The pauses of a run."""
    _, seen = looks(words, given)
    found = []
    for before, behind in zip(seen[::2], seen[1::2]):
        moved, kept = behind[6] - before[6], behind[7] - before[7]
        found.append(Pause(behind[0] - before[1], before[2], *behind[3:6], moved, kept, behind[8]))
    return found


def best(words, given, tries=5):
    """The pauses of a run, each with its least time of so many tries."""
    runs = [pauses(words, given) for _ in range(tries)]
    return [one[0]._replace(nanos=min(pause.nanos for pause in one)) for one in zip(*runs)]


def seconds(words, given=b"", tries=3):
    """The least time from the first operation to the end of the last pause."""
    times = []
    for _ in range(tries):
        first, seen = looks(words, given)
        times.append((seen[-1][0] - first) / 1e9)
    return min(times)


def chain(objects):
    """Makes a list of so many objects, each with one reference, before the one that r1 holds; r1 holds the last one."""
    lines = ["new r2 1 0", "store r2 0 r1", "new r1 1 0", "store r1 0 r2"] * (objects // 2)
    return lines + ["new r2 1 0", "store r2 0 r1", "move r1 r2"] * (objects % 2)


def time(operations):
    """Goes on for so many operations of three steps each."""
    return ["load r2 r0 1"] * operations
