"""The tables of runs beside plain_ring.c, which does the same with arrays."""
from __future__ import annotations

import filecmp
import os
import shutil
import statistics
import subprocess
import sys
from typing import NamedTuple

from bounds import CASES_NEAR_C, INSTRUCTIONS, NEAR_C, Figures, memory_of, time_of
from inputs import (
    CASES, EACH, MAKERS, MIB, PASSES_LARGE, RINGS, SHARED, SMALL, SMALL_BLOCKS, Ring, make_case,
    write_setup,
)
from measurements import COMMANDS, TOP, WORK, Asked, Words, faults_of, instructions_of, measure


class Row(NamedTuple):
    """What a case takes of ringtap, of C and of C with records."""

    frames: int
    times: list[float]  # the least, in ms
    faults: list[int]
    memory: list[float]  # MiB
    instructions: list[float | None]  # of a frame


def same_files(members: int) -> bool:
    """Whether both programs saved the same packets."""
    return all(
        filecmp.cmp(f"out.{member}.pcap", f"plain.{member}.pcap", shallow=False)
        for member in range(members)
    )


def compiler_of() -> str | None:
    """A C compiler; or it is said that there is none."""
    compiler = shutil.which("cc") or shutil.which("gcc")
    if not compiler:
        print("\nno C compiler, so nothing is compared with a program in C")
    return compiler


def built_plain() -> str | None:
    """Builds the program in C and gives its path, if there is a compiler."""
    compiler = compiler_of()
    if not compiler:
        return None
    plain = os.path.join(WORK, "plain_ring")
    subprocess.run(
        [compiler, "-O2", "-pthread", "-o", plain, os.path.join(TOP, "bench", "plain_ring.c")],
        check=True
    )
    return plain


def words_of_plain(plain: str, ring: Ring, words: Words) -> Words:
    return [plain, "in.pcap", "plain", str(ring["block_size"]), str(ring["block_nr"]), *words]


def times_by_turns(runs: dict[str, Words], asked: Asked, members: int) -> dict[str, list[float]]:
    """Of some runs, each by its name, the times by turns. What the runs of the program in C save
    is compared with what ringtap saved."""
    times: dict[str, list[float]] = {name: [] for name in runs}
    for turn in range(asked.runs):
        for name, words in runs.items():
            times[name].append(measure(words, 1)[0])
            if not turn and "plain" in words and not same_files(members):
                sys.exit(f"{' '.join(words)} saved other files than ringtap")
    return times


def row_beside_plain(program: str, plain: str, case: str, asked: Asked) -> Row:
    """What a case takes of ringtap, of C and of C with records."""
    kind, group, words = CASES[case]
    words = words or ["1"]
    theirs = words_of_plain(plain, RINGS["keeps"], words)
    runs = {
        "ringtap": [program, *COMMANDS["replay"]], "C": theirs,
        "C with records": [*theirs, "records"]
    }
    write_setup("conf", RINGS["keeps"], 1, group)
    few = make_case(kind, 2 * MIB)
    counted = [instructions_of(one) for one in runs.values()]
    count = make_case(kind, 32 * MIB)
    times = [min(taken) * 1000 for taken in times_by_turns(runs, asked, int(words[0])).values()]
    faults, memory = zip(*map(faults_of, runs.values()))
    instructions = [number and number / few for number in counted]
    return Row(count, times, list(faults), [size / MIB for size in memory], instructions)


def figures_of(rows: dict[str, Row]) -> Figures:
    """What has bounds of the cases."""
    to_bare = sorted(row.times[0] / row.times[1] for row in rows.values())
    found = {NEAR_C: to_bare[CASES_NEAR_C - 1]}
    for case, row in rows.items():
        found[time_of(case)] = row.times[0] / row.times[2]
        found[memory_of(case)] = row.memory[0] / row.memory[2]
    number = rows[SMALL].instructions[0]
    return {**found, INSTRUCTIONS: number} if number else found


def times_of_plain(program: str, asked: Asked) -> Figures:
    """Prints the tables of the program in C, without records and with them, and how many times
    its time each case takes. What has bounds is given back, nothing where there is no C
    compiler."""
    print("\n## Beside a plain C program\n")
    plain = built_plain()
    if not plain:
        return {}
    with open("large.ddd", "w", encoding="ascii") as file:
        file.write(PASSES_LARGE)
    rows = {case: row_beside_plain(program, plain, case, asked) for case in CASES}
    print(
        "\n| Case, 32 MiB | Frames | Time, ms | C, ms | C with records, ms | To C | C with records "
        "to C | To C with records |"
    )
    print("|---|---|---|---|---|---|---|---|")
    for case, (count, (ours, bare, full), *_) in rows.items():
        print(
            f"| {case} | {count:,} | {ours:.0f} | {bare:.0f} | {full:.0f} | {ours / bare:.2f} | "
            f"{full / bare:.2f} | {ours / full:.2f} |"
        )
    print(
        "\n| Case, 32 MiB | Page faults | C | C with records | Memory, MiB | C | C with records | "
        "Instructions a frame | C | C with records |"
    )
    print("|---|---|---|---|---|---|---|---|---|---|")
    for case, (_, _, *counts) in rows.items():
        numbers = [f"{number:,.0f}" if number else "-" for count in counts for number in count]
        print(f"| {case} | " + " | ".join(numbers) + " |", flush=True)
    return figures_of(rows)


def times_of_plain_threads(program: str, asked: Asked) -> None:
    """Prints what four CPUs with a member each gain on threads, in ringtap and in C, where a
    thread shares nothing with the others."""
    print("\n## C on threads\n")
    plain = built_plain()
    if not plain:
        return
    print(
        "\n| Frames of | Blocks | Replay, s | middle | Capture, s | middle | Times | middle | C in "
        "a row, s | middle | C on threads, s | middle | Times | middle |"
    )
    print("|---|---|---|---|---|---|---|---|---|---|---|---|---|---|")
    for kind, maker in MAKERS.items():
        maker()
        for ring in (RINGS["keeps"], SMALL_BLOCKS):
            write_setup("conf", ring, 4, SHARED[EACH](4))
            theirs = words_of_plain(plain, ring, ["1", "records", "cpus", "4"])
            ours = {command: [program, *COMMANDS[command]] for command in ("replay", "capture")}
            runs = {**ours, "in a row": theirs, "on threads": [*theirs, "threads"]}
            times = [
                (min(taken), statistics.median(taken))
                for taken in times_by_turns(runs, asked, 4).values()
            ]
            cells = [f"{ring['block_size'] // 1024:,} KiB"]
            for before, after in (times[:2], times[2:]):
                cells += (
                    [f"{taken:.3f}" for taken in before + after]
                    + [f"{new / old:.2f}" for old, new in zip(before, after)]
                )
            print(f"| {kind} | " + " | ".join(cells) + " |", flush=True)
