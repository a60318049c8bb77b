"""The tables of captures on threads, of readers that send, of pools of workers, and of processes
that share nothing."""
from __future__ import annotations

import os
import shutil
import statistics
import subprocess
import sys
import time
from collections.abc import Iterator
from typing import NamedTuple

from bounds import Figures, capture_of, too_much
from inputs import EACH, MAKERS, ONE, RINGS, SHARED, SMALL_BLOCKS, Ring, write_setup
from measurements import COMMANDS, Asked, Times, one_run, remove_outputs, total_of

POOLS = (0, 1, 2, 4)
MOST_CPU = 2.5
CPUS = (1, 2, 4, 8)


class Taken(NamedTuple):
    """What some runs took, in seconds: the least time, the middle one, and the least CPU time."""

    least: float
    middle: float
    cpu: float


class Row(NamedTuple):
    """A capture on threads and a replay of the same setup."""

    group: str
    kind: str  # the bytes of a frame
    cpus: int
    ring: str
    replay: Taken
    capture: Taken

    @property
    def keeps(self) -> bool:
        """Whether the ring keeps all frames, so that times can be compared."""
        return self.ring != "drops"


def taken_by(times: Times) -> Taken:
    least, cpu = map(min, zip(*times))
    return Taken(least, statistics.median(taken for taken, _ in times), cpu)


def times_of_row(
    program: str, count: int, ring: str, asked: Asked, first: str, second: str
) -> tuple[Times, Times, list[int]]:
    """Of the setup that is there, run by turns by two commands: the times and CPU times of each,
    and the drops of the second."""
    times: dict[str, Times] = {first: [], second: []}
    drops = []
    for _ in range(asked.runs):
        for command in (first, second):
            taken, cpu, printed = one_run([program, *COMMANDS[command]])
            kept, lost = total_of(printed)
            if kept + lost != count or lost and ring != "drops":
                sys.exit(f"{command}: {count} frames, {kept} kept, {lost} dropped")
            times[command].append((taken, cpu))
            if command == second:
                drops.append(lost)
    return times[first], times[second], drops


def rows_of_threads() -> Iterator[tuple[str, Ring, str, int]]:
    """A ring's name and shape, a group's name and a number of CPUs, for each of the captures on
    threads."""
    for ring, shape in RINGS.items():
        for group in SHARED:
            yield from (
                (ring, shape, group, cpus)
                for cpus in CPUS if group != ONE or cpus == max(CPUS)
            )
        if ring == "keeps":
            yield from (("keeps, 64 KiB", SMALL_BLOCKS, EACH, cpus) for cpus in CPUS)


def time_at_once(program: str, count: int) -> float:
    """Seconds from the start of so many replays of one CPU, each a process with a folder of its
    own, to the end of the last."""
    for number in range(count):
        remove_outputs(COMMANDS["replay"], f"apart{number}")
    begun = time.perf_counter()
    runs = [
        subprocess.Popen(
            [program, *COMMANDS["replay"]], cwd=f"apart{number}", stdout=subprocess.DEVNULL
        )
        for number in range(count)
    ]
    if any([run.wait() for run in runs]):
        sys.exit("a replay of one CPU failed")
    return time.perf_counter() - begun


def times_of_processes(program: str, asked: Asked) -> None:
    """Prints how long replays of one CPU take that run at the same time as processes of their
    own: what the machine gives to work that shares nothing."""
    print("\n## Replays at the same time, each a process\n")
    print("\n| Frames of | One, s | Two at once | Three | Four | Four to four in a row |")
    print("|---|---|---|---|---|---|")
    for kind, maker in MAKERS.items():
        maker()
        for number in range(4):
            os.makedirs(f"apart{number}", exist_ok=True)
            write_setup(f"apart{number}/conf", SMALL_BLOCKS, 1, SHARED[EACH](1))
            for name in ("in.pcap", "sched"):
                shutil.copy(name, f"apart{number}/{name}")
        times = [
            min(time_at_once(program, count) for _ in range(asked.runs))
            for count in (1, 2, 3, 4)
        ]
        print(
            f"| {kind} | " + " | ".join(
                f"{taken:.3f}"
                for taken in times
            ) + f" | {times[3] / 4 / times[0]:.2f} |",
            flush=True
        )


def cells_of(row: Row) -> list[str]:
    """The times of a row, and how many times those of the replay the capture takes."""
    cells = [f"{seconds:.3f}" for seconds in row.replay + row.capture]
    return (
        cells
        + [f"{new / old:.2f}" if row.keeps else "-" for old, new in zip(row.replay, row.capture)]
    )


def times_of_threads(program: str, asked: Asked) -> list[Row]:
    """Prints the table of captures on threads, and gives its rows."""
    print("\n## Captures on threads\n")
    cores = len(os.sched_getaffinity(0)) if hasattr(os, "sched_getaffinity") else os.cpu_count()
    print(
        f"\n{cores} processors, load {os.getloadavg()[0]:.1f} before the captures on threads; a "
        "run has a thread for each CPU and each"
    )
    print(
        "member and one for the timer, so more than there are processors where CPUs and members "
        "together are as many or more."
    )
    print(
        "\n| Group | Frames of | CPUs | Ring | Frames | Replay, s | middle | CPU | Capture, s | "
        "middle | CPU | Times | middle | CPU times | Drops |"
    )
    print("|---|---|---|---|---|---|---|---|---|---|---|---|---|---|---|")
    rows = []
    for kind, maker in MAKERS.items():
        each = maker()
        for ring, shape, group, cpus in rows_of_threads():
            write_setup("conf", shape, cpus, SHARED[group](cpus))
            old, new, drops = times_of_row(program, each * cpus, ring, asked, "replay", "capture")
            row = Row(group, kind, cpus, ring, taken_by(old), taken_by(new))
            rows.append(row)
            cells = [
                group, kind, str(cpus), ring, f"{each * cpus:,}", *cells_of(row),
                f"{min(drops):,} to {max(drops):,}"
            ]
            print(f"| {' | '.join(cells)} |", flush=True)
    return rows


def dear_captures(rows: list[Row]) -> list[str]:
    """The captures that keep all frames, with a member for each CPU, and take too much CPU
    time."""
    every = [row for row in rows if row.keeps and row.group == EACH]
    return [
        too_much(
            f"CPU time of capture to replay, {row.kind}, {row.cpus} CPUs, ring that {row.ring}",
            row.capture.cpu / row.replay.cpu, MOST_CPU
        )
        for row in every if row.capture.cpu > MOST_CPU * row.replay.cpu
    ]


def figures_of_threads(rows: list[Row]) -> Figures:
    """How many times the middle replay the middle capture takes, where frames are small and all
    are kept."""
    small = [row for row in rows if row.keeps and row.kind == "60"]
    return {
        capture_of(row.group, row.cpus, row.ring): row.capture.middle / row.replay.middle
        for row in small
    }


def times_of_forwards(program: str, asked: Asked) -> None:
    """Prints the table of captures whose readers send, beside those whose readers keep; each
    ring keeps all frames."""
    print("\n## Readers that send\n")
    print(
        "\n| Frames of | CPUs | Frames | Capture, s | middle | CPU | Forward, s | middle | CPU | "
        "Times | CPU times |"
    )
    print("|---|---|---|---|---|---|---|---|---|---|---|")
    for kind, maker in MAKERS.items():
        each = maker()
        for cpus in (1, 2, 4):
            write_setup("conf", RINGS["keeps"], cpus, SHARED[EACH](cpus))
            old, new, _ = times_of_row(program, each * cpus, "keeps", asked, "capture", "forward")
            capture, forward = taken_by(old), taken_by(new)
            cells = [
                kind, str(cpus), f"{each * cpus:,}",
                *(f"{seconds:.3f}" for seconds in capture + forward)
            ]
            cells += [f"{forward.middle / capture.middle:.2f}", f"{forward.cpu / capture.cpu:.2f}"]
            print(f"| {' | '.join(cells)} |", flush=True)


def runs_with_pools(
    program: str, count: int, ring: str, asked: Asked
) -> dict[int, list[tuple[float, float, int]]]:
    """Captures of two CPUs for a member each, by turns with pools of so many workers: the time,
    CPU time and drops of each run."""
    runs: dict[int, list[tuple[float, float, int]]] = {workers: [] for workers in POOLS}
    for _ in range(asked.runs):
        for workers, found in runs.items():
            write_setup("conf", RINGS[ring], 2, SHARED[EACH](2) + f"workers {workers}\n")
            taken, cpu, printed = one_run([program, *COMMANDS["capture"]])
            kept, lost = total_of(printed)
            if kept + lost != count or lost and ring == "keeps":
                sys.exit(f"{workers} workers: {count} frames, {kept} kept, {lost} dropped")
            found.append((taken, cpu, lost))
    return runs


def times_of_pools(program: str, asked: Asked) -> None:
    """Prints the table of captures whose blocks a pool of workers decodes, and of those without
    one, over the same rings."""
    print("\n## Captures with a pool\n")
    print("\n| Frames of | Ring | Workers | Frames | Capture, s | middle | CPU | Drops |")
    print("|---|---|---|---|---|---|---|---|")
    for kind, maker in MAKERS.items():
        count = 2 * maker()
        for ring in RINGS:
            for workers, found in runs_with_pools(program, count, ring, asked).items():
                times, cpus, drops = zip(*found)
                print(
                    f"| {kind} | {ring} | {workers} | {count:,} | {min(times):.3f} | "
                    f"{statistics.median(times):.3f} | {min(cpus):.3f}"
                    f" | {min(drops):,} to {max(drops):,} |",
                    flush=True,
                )
