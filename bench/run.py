#!/usr/bin/env python3
"""Times `ringtap replay` on captures of 4 to 32 MiB, beside `tcpdump -r IN -w OUT` of the same
file in the same run; then pcapng captures of the same frames; then groups of several members and
CPUs, with a filter, and with reassembly; then `ringtap make`, `ringtap send` and `ringtap
replay2`; then `ringtap capture` beside `replay` of the same captures, `ringtap forward` beside
`capture`, and captures with pools of workers beside those without; and at last `ringsize`.

bench/run.py [--sizes 4,8,16,32] [--runs 5] [--beside OTHER | --threads | --ringsize]
             [--no-results] [PROGRAM]

PROGRAM is crates/ringtap/out/ringtap where none is named; it is built where it isn't there. The
captures have frames of 60 bytes, of 1514 bytes, or of 60, 590 and 1514 bytes by turns. Each is
replayed with a ring that keeps every frame and with one that drops. Those of 60 and of 1514 bytes
are sent through a ring of 2048 slots, and replayed over rings of TPACKET_V2. Files are written
below bench/work. With --beside the replays alone are run, by turns with those of another program,
as an earlier one; both must print the same. With --threads the captures on threads, the forwards
and the pools alone are run, with --ringsize that program alone. All that is printed is written into
bench/results too, with date, commit and machine, but with --no-results.

The tables are in replay_tables.py, thread_tables.py, plain_tables.py, settings_table.py and
size_tables.py, the captures and setups in inputs.py, what is taken of a run in measurements.py, and
what figures may be in bounds.py.

The captures on threads have 1, 2, 4 and 8 CPUs with 4 MiB each, and on one member 8. Of each row
all times are taken by turns with a replay whose schedule is empty; the least and the middle one
are printed, since with threads they lie apart, and the fewest and the most drops. Only rings
that keep all frames can be compared in time: a frame that is dropped costs less than one that is
kept. A table before them has how long one to four replays of one CPU take at the same time, each
a process of its own: the processors of a virtual machine may share what they stand on.

Where there is a C compiler, seven replays of 32 MiB are run by turns with bench/plain_ring.c,
which does the same with arrays, once without notes and once with what a replay's report holds of
each frame. All must save the same files. Page faults are those of one run; instructions are
those that valgrind counts of a capture of 2 MiB, by frame, where valgrind is there. The same
program, with records and four CPUs in a row or on threads that share nothing, stands beside
replays and captures of four CPUs: a measure of what threads can give on a machine. Then replays
of 32 MiB and captures of four CPUs as they are, and where the C library is told by a word of the
environment to ask for large pages, to keep its heap, or both.

ringsize answers for all phases of a time-out of 1,000 ms over 100,000 drawn frames, by turns with
bench/plain_pass.c, which has to answer the same; and for one phase over as many frames of 14 bytes
as the captures of a setup may have, which says what it keeps of a frame.

Time is that from start to end, CPU that of the processor for user and system, each the least of
some runs. Memory is the largest resident size; the system counts no less than this script's own,
about 14 MiB. Each run saves into new files: over old ones it would take the time too that the
system needs to empty them.

It ends with status 1 where a run fails, where CPU time or memory grows by more than 2.2 times from
16 to 32 MiB or from 10,000 to 20,000 made frames, where memory grows by more than 256 bytes for
each frame that a filter refuses, where an instruction of a filter takes more than 1.5 times what it
takes of libpcap (bench/filters.py), where a capture on threads that keeps all frames, with a member
for each CPU, takes more than 2.5 times the CPU time of the replay, or where a figure passes its
bound in bench/bounds.py by more than a tenth. The bounds are of the seven replays beside C, their
time, memory and instructions, of captures on threads of small frames beside replays, and of
ringsize beside C, its growth and its memory. The last table has each of them with what was
measured, and below it stand all figures that fail, each with its bound; what there is no compiler
or no valgrind for isn't measured and fails nothing. With --threads the bounds of captures on
threads alone are tested, with --ringsize those of ringsize, with --beside none.
"""
from __future__ import annotations

import argparse
import contextlib
import datetime
import os
import platform
import shutil
import subprocess
import sys
from collections.abc import Iterator
from typing import TextIO

import filters
from bounds import BESIDE_C, OF_SIZES, ON_THREADS, Figures, passed_bounds
from measurements import PROGRAM, TOP, WORK, Asked
from plain_tables import times_of_plain, times_of_plain_threads
from replay_tables import (
    growth, memory_of_refused, times_beside, times_of_blocks, times_of_groups, times_of_made,
    times_of_replays, times_of_sent, times_of_slots,
)
from settings_table import times_of_settings
from size_tables import times_of_sizes
from thread_tables import (
    dear_captures, figures_of_threads, times_of_forwards, times_of_pools, times_of_processes,
    times_of_threads,
)

RESULTS = os.path.join(TOP, "bench", "results")


def asked_for() -> Asked:
    """What the command line asks for."""
    words = argparse.ArgumentParser(
        description=__doc__, formatter_class=argparse.RawDescriptionHelpFormatter
    )
    words.add_argument("--sizes", default="4,8,16,32")
    words.add_argument("--runs", type=int, default=5)
    words.add_argument("--beside", type=os.path.abspath)
    words.add_argument("--threads", action="store_true")
    words.add_argument("--ringsize", action="store_true")
    words.add_argument("--no-results", dest="results", action="store_false")
    words.add_argument("program", nargs="?", default=PROGRAM, type=os.path.abspath)
    return words.parse_args(namespace=Asked())


class Copied:
    """Standard output, with a copy of all that is written to it in a file."""

    def __init__(self, file: TextIO) -> None:
        self.file = file

    def write(self, text: str) -> int:
        self.file.write(text)
        return sys.__stdout__.write(text)

    def flush(self) -> None:
        self.file.flush()
        sys.__stdout__.flush()


def machine() -> str:
    """The processor's name, how many there are, and the kernel."""
    name = platform.machine()
    with contextlib.suppress(OSError), open("/proc/cpuinfo", encoding="utf-8") as file:
        names = [line.partition(":")[2].strip() for line in file if line.startswith("model name")]
        name = names[0] if names else name
    return (
        f"{os.cpu_count()} processors ({name}), kernel {platform.release()}, load "
        f"{os.getloadavg()[0]:.1f} at the start"
    )


def commit() -> str:
    """The commit of the checkout, with `+` where files differ from it."""
    found = subprocess.run(
        ["git", "-C", TOP, "describe", "--always", "--exclude=*", "--dirty=+"], capture_output=True,
        text=True
    )
    return found.stdout.strip() or "no commit"


@contextlib.contextmanager
def copied(asked: Asked) -> Iterator[None]:
    """Has what is printed written into bench/results too, into a file named by day and commit,
    below a line on machine and program."""
    if not asked.results:
        yield
        return
    os.makedirs(RESULTS, exist_ok=True)
    day, at = datetime.date.today().isoformat(), commit()
    kinds = {"-beside": asked.beside, "-threads": asked.threads, "-ringsize": asked.ringsize}
    kind = next((kind for kind, is_asked in kinds.items() if is_asked), "")
    with open(
        os.path.join(RESULTS, f"{day}-{at.rstrip('+')}{kind}.md"), "w", encoding="utf-8"
    ) as file:
        file.write(
            f"# A run of bench/run.py\n\n{day}, commit {at}, {machine()}; the least of "
            f"{asked.runs} runs where nothing else is said.\n\n"
        )
        with contextlib.redirect_stdout(Copied(file)):
            yield


def all_times_on_threads(program: str, asked: Asked) -> tuple[list[str], Figures]:
    """Prints the tables of captures on threads and of what stands beside them. Gives those that
    take too much CPU time, and what has bounds."""
    times_of_processes(program, asked)
    times_of_plain_threads(program, asked)
    rows = times_of_threads(program, asked)
    times_of_forwards(program, asked)
    times_of_pools(program, asked)
    return dear_captures(rows), figures_of_threads(rows)


def all_times(program: str, asked: Asked) -> tuple[list[str], Figures]:
    """Prints all tables. Gives what takes or grows too much, and what has bounds."""
    found = times_of_replays(program, asked)
    times_of_blocks(program, asked)
    for times in (times_of_groups, times_of_made, times_of_sent, times_of_slots):
        found.update(times(program, asked))
    failures, figures = all_times_on_threads(program, asked)
    figures.update(times_of_plain(program, asked))
    times_of_settings(program, asked)
    figures.update(times_of_sizes(asked))
    failures += memory_of_refused(program, asked)
    failures += filters.costs_of_filters()
    return failures + growth(found), figures


def tables_of(asked: Asked) -> list[str]:
    """Prints the tables that are asked for, and gives what takes or grows too much, or passes its
    bound: each figure with its bound."""
    if asked.beside:
        times_beside(asked.program, asked.beside, asked)
        return []
    if asked.ringsize:
        return passed_bounds(OF_SIZES, times_of_sizes(asked))
    times, bounds = (all_times_on_threads, ON_THREADS) if asked.threads else (
        all_times, {**BESIDE_C, **ON_THREADS, **OF_SIZES}
    )
    failures, figures = times(asked.program, asked)
    return failures + passed_bounds(bounds, figures)


def run_tables(asked: Asked) -> list[str]:
    """Prints the tables, and at last what fails."""
    failures = tables_of(asked)
    if failures:
        print("\n## Failures\n")
        print("".join(f"- {failure}\n" for failure in failures), end="")
    return failures


def main() -> None:
    asked = asked_for()
    if not os.path.exists(asked.program):
        subprocess.run(["sh", os.path.join(TOP, "demo", "build.sh")], check=True)
    os.makedirs(WORK, exist_ok=True)
    try:
        os.chmod(WORK, 0o777)  # tcpdump may write as another user
        os.chdir(WORK)
        open("sched", "wb").close()
        with copied(asked):
            failures = run_tables(asked)
    finally:
        os.chdir(TOP)
        shutil.rmtree(WORK)
    sys.exit(1 if failures else 0)


if __name__ == "__main__":
    main()
