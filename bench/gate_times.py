#!/usr/bin/env python3
"""Which crate and which of its parts takes the gate's time.

    gate_times.py --watch OUT [PID]   samples the prover's processes each second, and writes to OUT
                                      what each took so far
    gate_times.py --table OUT         prints a table of it: of each crate its own proof, its tests'
                                      proof, the first of its edits, the others, and the check of
                                      the crate that ends them

The gate prints no times, so start the watch beside it, and keep its table in bench/results:

    rt ci > gate.log & python3 bench/gate_times.py --watch gate.json $!
    python3 bench/gate_times.py --table gate.json

With a PID it counts the processes below that one alone, and ends with it; without one it counts
every process of the prover on the machine, and ends when it is interrupted.

Each edit of a crate is tried over what those before it proved, so the first takes about as long as
the crate's proof. Two or more end with a check of the crate itself over the same.

Times are seconds of one processor, for user and system. A process that ends between two samples
is counted up to the last one, so a check falls short by a second at most, and one of less than a
second may be missing. Memory is the largest resident size of one process.
"""
from __future__ import annotations

import argparse
import collections
import filecmp
import functools
import json
import os
import signal
import sys
import time
from typing import NamedTuple

PROVER = "rattle"
PARTS = ["proof", "tests", "first edit", "edits", "last check"]
TICK = os.sysconf("SC_CLK_TCK")


class Seen(NamedTuple):
    """What a process of the prover took until now, and when it began, in ticks since the machine
    did."""

    crate: str
    part: str
    begun: int
    seconds: float
    kib: int


def text_of(pid: int, name: str) -> str:
    with open(f"/proc/{pid}/{name}", encoding="utf-8", errors="replace") as file:
        return file.read()


def fields_of(pid: int) -> list[str]:
    """The numbers of a process's stat file that stand after its name: its state is the first."""
    return text_of(pid, "stat").rpartition(")")[2].split()


def top_of(pid: int) -> str:
    """The folder of the repository, which rt runs in: that of the nearest process above the
    prover's own."""
    while os.path.basename(text_of(pid, "cmdline").split("\0")[0]) == PROVER:
        pid = int(fields_of(pid)[1])
    return os.readlink(f"/proc/{pid}/cwd")


@functools.lru_cache(maxsize=None)
def part_of(pid: int, begun: str, folder: str, crate: str, above: str) -> str:
    """What a check in a copy of a crate is for. The one that ends the edits has the crate's own
    files."""
    own, copy = f"{above}/crates/{crate}/src", f"{folder}/src"
    try:
        names = [
            os.path.relpath(f"{at}/{name}", own) for at, _, names in os.walk(own) for name in names
        ]
        differ = any(filecmp.cmpfiles(own, copy, names, shallow=False)[1:])
        return "edits" if differ else "last check"
    except OSError:
        return "edits"


def seen_of(pid: int, fields: list[str]) -> Seen | None:
    """What a process of the prover took until now; None for any other process."""
    words = text_of(pid, "cmdline").split("\0")
    if os.path.basename(words[0]) != PROVER or "--crate-name" not in words:
        return None
    crate, folder = words[words.index("--crate-name") + 1], os.readlink(f"/proc/{pid}/cwd")
    part = "tests" if "--test" in words else "proof"
    if os.path.basename(folder).startswith("rt-edit"):
        # an edit is tried in a copy of the crate, in a folder of its own; rt itself is in the
        # repository
        part = part_of(pid, fields[19], folder, crate, top_of(pid))
    peak = next(
        (
            line.split()[1]
            for line in text_of(pid, "status").splitlines() if line.startswith("VmHWM")
        ),
        "0"
    )
    seconds = (int(fields[11]) + int(fields[12])) / TICK
    return Seen(crate, part, int(fields[19]), seconds, int(peak))


def sample(seen: dict[str, Seen], top: int | None) -> bool:
    """Notes what each process took, by its number and its start. Says whether the top one still
    runs."""
    stats = {}
    for name in filter(str.isdigit, os.listdir("/proc")):
        try:
            stats[int(name)] = fields_of(int(name))
        except OSError:
            continue
    for pid, fields in stats.items():
        above = pid
        while top and above != top and above in stats:
            above = int(stats[above][1])
        if top and above != top:
            continue
        try:
            now = seen_of(pid, fields)
        except OSError:
            continue
        if now:
            seen[f"{pid} {fields[19]}"] = now
    return not top or stats.get(top, ["Z"])[0] != "Z"


def watch(path: str, top: int | None) -> None:
    """Notes what the processes take each second, until the top one ends or this one is told to."""
    seen: dict[str, Seen] = {}
    begun = time.time()
    signal.signal(signal.SIGTERM, signal.default_int_handler)
    try:
        while sample(seen, top):
            write(path, seen, time.time() - begun)
            time.sleep(1)
    except KeyboardInterrupt:
        pass
    write(path, seen, time.time() - begun)


def write(path: str, seen: dict[str, Seen], seconds: float) -> None:
    with open(path + ".new", "w", encoding="utf-8") as file:
        json.dump({"seconds": seconds, "processes": sorted(seen.values())}, file)
    os.replace(path + ".new", path)


def table(path: str) -> None:
    """Prints what was noted."""
    with open(path, encoding="utf-8") as file:
        told = json.load(file)
    took: dict[str, dict[str, float]] = collections.defaultdict(
        lambda: collections.defaultdict(float)
    )
    peak: dict[str, int] = collections.defaultdict(int)
    edited = set()
    for crate, part, _, seconds, kib in sorted(told["processes"], key=lambda it: it[2]):
        if part == "edits" and crate not in edited:
            edited.add(crate)
            part = "first edit"
        took[crate][part] += seconds
        took["all"][part] += seconds
        peak[crate], peak["all"] = max(peak[crate], kib), max(peak["all"], kib)
    print(
        "| Crate | Proof, s | Tests, s | First edit, s | Other edits, s | Last check, s | All, s "
        "| Memory, MiB |"
    )
    print("|---|---|---|---|---|---|---|---|")
    for crate, parts in sorted(
        took.items(), key=lambda it: (it[0] != "all", sum(it[1].values())), reverse=True
    ):
        times = " | ".join(f"{parts[part]:,.0f}" for part in PARTS)
        print(f"| {crate} | {times} | {sum(parts.values()):,.0f} | {peak[crate] / 1024:,.0f} |")
    print(f"\n{told['seconds']:,.0f} seconds on the clock.")


def main() -> None:
    parser = argparse.ArgumentParser(
        description=__doc__, formatter_class=argparse.RawDescriptionHelpFormatter
    )
    parser.add_argument("--watch", metavar="OUT")
    parser.add_argument("--table", metavar="OUT")
    parser.add_argument("pid", nargs="?", type=int)
    asked = parser.parse_args()
    if bool(asked.watch) == bool(asked.table):
        parser.error("--watch or --table is wanted")
    if asked.watch:
        watch(asked.watch, asked.pid)
    else:
        table(asked.table)


if __name__ == "__main__":
    sys.exit(main())
