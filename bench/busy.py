#!/usr/bin/env python3
"""Times `ringtap capture` of CPUs that share members, on the machine as it is and while other
processes keep all processors busy.

    bench/busy.py [--runs 5] [--beside OTHER] [PROGRAM]

PROGRAM is crates/ringtap/out/ringtap where none is named. The captures have frames of 60 bytes,
4 MiB for each CPU, and rings that keep all frames. Of each row all runs are made by turns: a
replay with an empty schedule, the capture, and with --beside the capture by another program, as
an earlier one. First nothing of this script runs beside them, then as many processes that never
rest as there are processors. The least and the middle time are printed, and how many times the
middle replay each middle capture takes.

A run is ended after 20 seconds, and a program that was ended twice in a row isn't tried again in
that row, so all takes at most some minutes. Files are written below bench/work. It ends with
status 1 where PROGRAM was ended, or where beside the busy processes a capture takes more than 5
times as long as the replay, by the middle.
"""
from __future__ import annotations

import argparse
import contextlib
import math
import os
import shutil
import statistics
import subprocess
import sys
import threading
import time
from collections.abc import Iterator

from inputs import EACH, HASH, MIB, ONE, RINGS, SHARED, make_small_flows, write_setup
from measurements import COMMANDS, PROGRAM, TOP, WORK, Asked, Words, remove_outputs

LIMIT = 20
MOST = 5
# The name, the number of CPUs and the group of each row.
ROWS = [
    ("8 CPUs, one member", 8, SHARED[ONE](8)),
    ("4 CPUs, one member", 4, SHARED[ONE](4)),
    ("4 CPUs, four members by hash", 4, SHARED[HASH](4)),
    ("4 CPUs, a member each", 4, SHARED[EACH](4)),
]


# Never rests, and ends by itself once this script is gone, however that ended.
BUSY = "import os, sys\nparent = int(sys.argv[1])\nwhile os.getppid() == parent: pass"


@contextlib.contextmanager
def busy_processes(count: int) -> Iterator[None]:
    """So many processes that never rest."""
    beside = [
        subprocess.Popen([sys.executable, "-c", BUSY, str(os.getpid())])
        for _ in range(count)
    ]
    try:
        yield
    finally:
        for process in beside:
            process.kill()
            process.wait()


def time_of(words: Words) -> float:
    """Seconds of a run, or infinity where it was ended. One that fails ends the benchmark."""
    remove_outputs(words)
    start = time.monotonic()
    process = subprocess.Popen(words, stdout=subprocess.DEVNULL, stderr=subprocess.DEVNULL)
    timer = threading.Timer(LIMIT, process.kill)
    timer.start()
    status = process.wait()
    taken = time.monotonic() - start
    timer.cancel()
    if taken < LIMIT and status:
        sys.exit(f"{' '.join(words)} ended with status {status}")
    return taken if taken < LIMIT else math.inf


def times_of_row(runs: dict[str, Words], count: int) -> dict[str, list[float]]:
    """The times of each run, by turns."""
    times: dict[str, list[float]] = {name: [] for name in runs}
    for _ in range(count):
        for name, words in runs.items():
            if times[name][-2:] != [math.inf, math.inf]:
                times[name].append(time_of(words))
    return times


def shown(seconds: float) -> str:
    return f"more than {LIMIT}" if math.isinf(seconds) else f"{seconds:.3f}"


def print_rows(runs: dict[str, Words], busy: int, asked: Asked) -> bool:
    """Prints the rows beside so many busy processes, and gives whether PROGRAM takes too long."""
    too_long = False
    for name, cpus, group in ROWS:
        write_setup("conf", RINGS["keeps"], cpus, group)
        with busy_processes(busy):
            times = times_of_row(runs, asked.runs)
        middle = {one: statistics.median(taken) for one, taken in times.items()}
        cells = [
            cell
            for taken in times.values()
            for cell in (shown(min(taken)), shown(statistics.median(taken)))
        ]
        cells += [
            f"{middle[one] / middle['replay']:.2f}" if middle[one] < math.inf else "-"
            for one in runs if one != "replay"
        ]
        most = MOST if busy else math.inf
        too_long = (
            too_long or math.isinf(middle["capture"]) or middle["capture"] > most * middle["replay"]
        )
        print(f"| {name} | {busy} | " + " | ".join(cells) + " |", flush=True)
    return too_long


def asked_for() -> Asked:
    """What the command line asks for."""
    words = argparse.ArgumentParser(
        description=__doc__, formatter_class=argparse.RawDescriptionHelpFormatter
    )
    words.add_argument("--runs", type=int, default=5)
    words.add_argument("--beside", type=os.path.abspath)
    words.add_argument("program", nargs="?", default=PROGRAM, type=os.path.abspath)
    return words.parse_args(namespace=Asked())


def main() -> None:
    asked = asked_for()
    cores = (
        len(os.sched_getaffinity(0)) if hasattr(os, "sched_getaffinity") else os.cpu_count() or 1
    )
    runs = {
        "replay": [asked.program, *COMMANDS["replay"]],
        "capture": [asked.program, *COMMANDS["capture"]]
    }
    if asked.beside:
        runs["other"] = [asked.beside, *COMMANDS["capture"]]
    heads = [cell for one in runs for cell in (f"{one.capitalize()}, s", "middle")]
    heads += [f"{one.capitalize()}, times" for one in runs if one != "replay"]
    os.makedirs(WORK, exist_ok=True)
    try:
        os.chdir(WORK)
        open("sched", "wb").close()
        make_small_flows("in.pcap", 4 * MIB)
        print(f"{cores} processors, load {os.getloadavg()[0]:.1f} at the start\n")
        print(
            "| Group | Busy processes | " + " | ".join(heads) + " |\n|" + "---|" * (len(heads) + 2)
        )
        too_long = [print_rows(runs, busy, asked) for busy in (0, cores)]
    finally:
        os.chdir(TOP)
        shutil.rmtree(WORK)
    sys.exit(1 if any(too_long) else 0)


if __name__ == "__main__":
    main()
