"""What a run takes: its time, its processor time, its memory, its page faults and its
instructions."""
from __future__ import annotations

import argparse
import glob
import os
import resource
import shutil
import subprocess
import sys
import time
from typing import IO

Words = list[str]
Times = list[tuple[float, float]]  # the time and the CPU time of each run, in seconds
# CPU time and memory, by what was run and its size
Found = dict[tuple[str, int], tuple[float, int]]


class Asked(argparse.Namespace):
    """What the command line asks for."""

    sizes: str
    runs: int
    beside: str | None
    threads: bool
    ringsize: bool
    results: bool
    program: str

    def all_sizes(self) -> list[int]:
        """The sizes of captures in MiB."""
        return [int(size) for size in self.sizes.split(",")]


TOP = os.path.join(os.path.dirname(os.path.abspath(__file__)), "..")
WORK = os.path.join(TOP, "bench", "work")
PROGRAM = os.path.join(TOP, "crates", "ringtap", "out", "ringtap")
SIZER = os.path.join(TOP, "crates", "ringsize", "out", "ringsize")
# The words of each command that runs the captures of a setup.
COMMANDS = {
    "replay": ["replay", "conf", "sched"], "capture": ["capture", "conf"],
    "forward": ["forward", "conf"]
}


def remove_outputs(words: Words, folder: str = ".") -> None:
    """Removes what an earlier run of the same program saved in a folder."""
    prefix = "plain" if "plain" in words else "out"
    for path in glob.glob(os.path.join(folder, f"{prefix}.*")):
        os.remove(path)


def usage_of(words: Words, out: IO[bytes] | int) -> tuple[float, resource.struct_rusage]:
    """How many seconds a run takes, and what the system counts of it. One that fails ends the
    benchmark."""
    start = time.monotonic()
    process = subprocess.Popen(words, stdout=out, stderr=subprocess.DEVNULL)
    _, status, usage = os.wait4(process.pid, 0)
    taken = time.monotonic() - start
    process.returncode = os.waitstatus_to_exitcode(status)
    if process.returncode != 0:
        sys.exit(f"{' '.join(words)} ended with status {process.returncode}")
    return taken, usage


def measure(words: Words, runs: int) -> tuple[float, float, int, str]:
    """Of some runs the least time and CPU time in seconds, the largest memory in bytes, and what
    the last one printed."""
    best, least, memory, printed = float("inf"), float("inf"), 0, b""
    for _ in range(runs):
        remove_outputs(words)
        with open("printed", "wb") as out:
            taken, usage = usage_of(words, out)
        best, least = min(best, taken), min(least, usage.ru_utime + usage.ru_stime)
        memory = max(memory, usage.ru_maxrss * 1024)
        with open("printed", "rb") as out:
            printed = out.read()
    return best, least, memory, printed.decode()


def one_run(words: Words) -> tuple[float, float, str]:
    """Time and CPU time of one run in seconds, and what it printed."""
    taken, cpu, _, printed = measure(words, 1)
    return taken, cpu, printed


def faults_of(words: Words) -> tuple[int, int]:
    """The page faults of a run, and its largest memory in bytes."""
    _, usage = usage_of(words, subprocess.DEVNULL)
    return usage.ru_minflt, usage.ru_maxrss * 1024


def instructions_of(words: Words) -> int | None:
    """The instructions of a run as valgrind counts them, or None where it isn't there."""
    if not shutil.which("valgrind"):
        return None
    ran = subprocess.run(
        ["valgrind", "--tool=callgrind", "--callgrind-out-file=/dev/null", *words],
        capture_output=True, text=True, check=True
    )
    return next(
        int(line.split()[-1].replace(",", ""))
        for line in ran.stderr.splitlines() if "Collected" in line
    )


def total_of(printed: str) -> tuple[int, int]:
    """The numbers of frames kept and dropped, by the last line."""
    words = printed.splitlines()[-1].split()
    return int(words[words.index("kept") + 1]), int(words[words.index("drops") + 1])


def tested(kind: str, ring: str, count: int, printed: str) -> tuple[int, int]:
    """A run says of each frame that it was kept or dropped, and drops where it should."""
    kept, drops = total_of(printed)
    if kept + drops != count or (drops > 0) != (ring == "drops"):
        sys.exit(f"{kind}, ring that {ring}: {count} frames, {kept} kept, {drops} dropped")
    return kept, drops
