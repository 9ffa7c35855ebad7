"""What the scripts of bench/ share: how a run is measured, and how figures are told."""
from __future__ import annotations

import math
import os
import subprocess
import sys
import time
from typing import Callable, Iterable, NamedTuple, Sequence

sys.path.insert(0, os.path.join(os.path.dirname(os.path.realpath(__file__)), "..", "bridge"))

from formats import Refused
from generated import Generated
from tools import Repo, add_objects, find_program

TOP = os.path.dirname(os.path.dirname(os.path.realpath(__file__)))
ROUNDS = 10


def timings() -> str:
    """The path of the program of timings, which has to be built."""
    path = os.path.join(TOP, "crates", "timings", "out", "timings")
    if not os.access(path, os.X_OK):
        sys.exit("timings is not built: run `rt run` in crates/timings")
    return path


def rad_node() -> str:
    """The path of rad_node, which has to be built."""
    try:
        return find_program(None)
    except Refused as why:
        sys.exit(str(why))


def numbers(words: Sequence[str], usual: list[int], most: int, usage: str | None) -> list[int]:
    """The words as numbers from 1 on, or the usual ones where there is none."""
    if len(words) > most or not all(word.isdigit() and int(word) > 0 for word in words):
        sys.exit(usage)
    return [int(word) for word in words] or usual


# Running


class Used(NamedTuple):
    """How a run ended, its processor and wall time in seconds, its peak of memory in bytes."""

    status: int
    processor: float
    wall: float
    peak: int


def high_water(pid: int, program: str) -> int:
    """The most bytes of memory that a process has had since it runs the program."""
    try:
        if os.path.basename(os.readlink(f"/proc/{pid}/exe")) != os.path.basename(program):
            return 0
        with open(f"/proc/{pid}/status", encoding="ascii", errors="replace") as status:
            return max((1024 * int(line.split()[1]) for line in status
                        if line.startswith("VmHWM:")), default=0)
    except OSError:
        return 0


def watched(words: Sequence[str]) -> Used:
    """Runs a command. Its memory is looked at each millisecond until it ends."""
    start, peak, pid = time.monotonic(), 0, 0
    process = subprocess.Popen(words, stdout=subprocess.DEVNULL, stderr=subprocess.DEVNULL)
    while pid == 0:
        peak = max(peak, high_water(process.pid, words[0]))
        time.sleep(0.001)
        pid, status, used = os.wait4(process.pid, os.WNOHANG)
    process.returncode = os.waitstatus_to_exitcode(status)
    return Used(process.returncode, used.ru_utime + used.ru_stime, time.monotonic() - start, peak)


def used(words: Sequence[str], given: str = os.devnull) -> float:
    """The processor time of a whole run that reads a file, in seconds. It has to end with 0."""
    with open(given, "rb") as file:
        process = subprocess.Popen(words, stdin=file, stdout=subprocess.DEVNULL,
                                   stderr=subprocess.DEVNULL)
    _, status, found = os.wait4(process.pid, 0)
    process.returncode = os.waitstatus_to_exitcode(status)
    if process.returncode:
        sys.exit(" ".join(words) + f" ended with {process.returncode}")
    return found.ru_utime + found.ru_stime


def in_turns(runs: Iterable[Callable[[], float]], rounds: int = ROUNDS) -> list[float]:
    """The least time of each of some runs, which take turns."""
    found = [[run() for run in runs] for _ in range(rounds)]
    return [min(times) for times in zip(*found)]


def best(words: Sequence[str], rounds: int = ROUNDS) -> float:
    """The least processor time of some runs of a command, in seconds."""
    return min(used(words) for _ in range(rounds))


class Steps:
    """A run that prints a line before each step that is timed, and waits for one."""

    def __init__(self, words: Sequence[str]) -> None:
        self.words = words
        self.process = subprocess.Popen(words, stdin=subprocess.PIPE, stdout=subprocess.PIPE)

    def __enter__(self) -> Steps:
        return self

    def __exit__(self, *_: object) -> None:
        self.process.stdin.close()
        self.process.stdout.close()
        self.process.wait()

    def line(self) -> str:
        """The next line that the run prints."""
        return self.process.stdout.readline().decode().strip()

    def await_line(self, wanted: str) -> None:
        """The next line has to be this one."""
        if self.line() != wanted:
            sys.exit(" ".join(self.words) + " failed")

    def spent(self) -> float:
        """The processor time of the run so far, in seconds."""
        return time.clock_gettime((~self.process.pid << 3) | 2)

    def step(self) -> tuple[float, str]:
        """Lets the run go on to its next line: the processor time until there, and the line."""
        before = self.spent()
        self.go_on()
        line = self.line()
        return self.spent() - before, line

    def go_on(self) -> None:
        """Gives the run the line that it waits for."""
        self.process.stdin.write(b"\n")
        self.process.stdin.flush()


# git


def git_words(folder: str, *words: str, compression: int = 0) -> list[str]:
    """A command of git in one thread, without a commit-graph."""
    return ["git", "-C", folder, "-c", "pack.threads=1", "-c", f"core.compression={compression}",
            "-c", f"pack.compression={compression}", "-c", "core.commitGraph=false", *words]


def repack(folder: str, compression: int = 0) -> None:
    """Packs all objects into one pack without deltas."""
    used(git_words(folder, "repack", "-q", "-a", "-d", "-F", "--depth=0", "--window=0",
                   compression=compression))


def packed(folder: str, generated: Generated) -> str:
    """Makes a Git repository of a generated one, in one pack without deltas or compression, whose
    path it gives. Its branch is master."""
    os.mkdir(folder)
    repo = Repo(folder)
    repo.git("init", "-q", "--bare", "--object-format=sha1")
    add_objects(repo, generated.objects())
    for ref, oid in (("refs/heads/master", generated.tip), ("refs/rad/id", generated.identity),
                     ("refs/rad/sigrefs", generated.sigrefs)):
        repo.git("update-ref", ref, oid.hex())
    repack(folder)
    packs = os.path.join(folder, "objects", "pack")
    return next(os.path.join(packs, name) for name in os.listdir(packs) if name.endswith(".pack"))


# Telling


def seconds(time_taken: float) -> str:
    """A time with three digits."""
    if time_taken <= 0:
        return "0 s"
    places = max(0, 2 - math.floor(math.log10(time_taken)))
    return f"{time_taken:.{places}f} s"


def megabytes(count: float) -> str:
    """A number of bytes, in millions."""
    return f"{count / 1_000_000:.1f} MB"


def ratio(one: float, other: float, of: str) -> str:
    """How often the other goes into the one, with what the other is of."""
    return f"{one / other:.2f} of {of}" if other > 0 else f"nothing to compare in {of}"
