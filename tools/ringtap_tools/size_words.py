"""What ring_size.py prints: tables, words, and the same as one object."""
from __future__ import annotations

import csv
import io
import itertools
from dataclasses import asdict, dataclass
from fractions import Fraction

from .about import about_object, about_words
from .advice import TCPDUMP_TIMEOUT, Advice
from .answers import kernel_words
from .clock import Pace, first_step
from .runs import table
from .schedule import Fed
from .svg_plot import kib
from .trials import (
    BLOCKS,
    LEAST_BLOCKS,
    SLOTS,
    Kind,
    Result,
    Ring,
    Trials,
    answers_by_mode,
    evenness,
    lines_of,
    members_of,
    tried_words,
)

HEADS = [
    "mode",
    "members",
    "tov",
    "block_size",
    "block_nr",
    "memory",
    "phase",
    "kept",
    "drops",
    "freezes",
    "blocks",
    "fewest",
]


def row_of(result: Result) -> list[object]:
    """The run at the worst phase, and the fewest drops of any."""
    ring, report = result.ring, result.worst
    return [
        ring.mode,
        ring.members,
        ring.timeout,
        ring.block_size,
        ring.block_nr,
        ring.memory,
        result.worst_phase,
        report.kept,
        report.drops,
        report.freezes,
        report.blocks,
        result.fewest,
    ]


def phases_words(result: Result, first: Fraction | None) -> str:
    """Which phases of the timer were tried, and which beginnings of the reader, whose first step
    comes so many milliseconds after the first frame where not all were."""
    is_whole, has_begin = bool(result.drops_by_phase), result.begin is not None
    tried = tried_words(is_whole and not result.ring.is_v2, has_begin)
    if has_begin:
        return tried
    count = len(result.phases)
    if not is_whole and count > 1:
        tried = f" at each of {count} phases of the timer"
    if first is None:
        return tried
    step = f"{float(first):g} ms after the first frame"
    return f"{tried}, for a reader whose first step comes {step}"


def looks_at_freezes(result: Result) -> bool:
    """Whether it was looked at every phase of a timer for freezes, and not for losses alone."""
    return bool(result.drops_by_phase) and not result.ring.is_v2


def kind_of(result: Result) -> Kind:
    """The kind of ring whose words are right: of a ring of blocks that was looked at for losses
    alone they are those of slots."""
    return BLOCKS if looks_at_freezes(result) else SLOTS


def lost_words(result: Result) -> str:
    """What a ring loses, from its best phase to its worst."""
    lost = (
        f"{result.fewest:,} to {result.drops:,}"
        if result.fewest != result.drops
        else f"{result.drops:,}"
    )
    packets = f"{lost} of {result.worst.kept + result.drops:,} packets"
    if looks_at_freezes(result):
        return f"{result.ring.block_nr} blocks freeze, and lose {packets}, by the phase"
    return f"with {result.ring.block_nr} blocks {packets} are lost"


def verdict_of(results: list[Result], least: Result | None, first: Fraction | None) -> list[str]:
    """The smallest ring that suffices, in words, and the largest of its line that doesn't."""
    if least is None:
        best = min(results, key=lambda result: (result.drops, result.ring.memory))
        does = kind_of(best).fails
        return [
            f"every ring that was tried {does}: no ring suffices",
            (
                f"the smallest loss: {best.drops:,} of {best.worst.kept + best.drops:,}, by"
                f" {best.ring.words()}"
            ),
        ]
    line = next(line for line in lines_of(results) if least in line)
    smaller = [result for result in line if result.ring.block_nr < least.ring.block_nr]
    what = (
        "smallest ring"
        if smaller or least.ring.block_nr == LEAST_BLOCKS
        else "smallest ring of those tried"
    )
    does = kind_of(least).suffices
    larger = " (any larger one is as good)" if least.drops_by_phase else ""
    said = [
        f"the {what} that {does}{phases_words(least, first)}: {least.ring.words()};"
        f" {kib(least.ring.memory)} in all{larger}"
    ]
    return said + ([lost_words(smaller[-1])] if smaller else [])


MEMBER_HEADS = ["mode", "members", "member", "kept", "drops", "bytes kept"]


def member_rows(trials: Trials, results: list[Result]) -> list[list[object]]:
    """What each member kept and dropped, at the answer's ring of each mode."""
    rows = []
    for result in answers_by_mode(results):
        kept = trials.kept_bytes(result)
        for at, member in enumerate(members_of(result)):
            rows.append(
                [result.ring.mode, result.ring.members, at, member.kept, member.drops, kept[at]]
            )
    return rows


def evenness_rows(rows: list[list[object]]) -> list[list[object]]:
    """The largest member to the mean one, of each mode and number of members: packets, kept or
    dropped, and bytes kept."""
    found = []
    for (mode, members), group in itertools.groupby(rows, key=lambda row: (row[0], row[1])):
        mine = list(group)
        packets, kept = evenness([row[3] + row[4] for row in mine]), evenness(
            [row[5] for row in mine]
        )
        found.append([mode, members, f"{packets:.2f}", f"{kept:.2f}"])
    return found


def table_text(results: list[Result]) -> str:
    """The table with a row for each ring, and below it one for each of its members."""
    made = io.StringIO()
    writer = csv.writer(made, lineterminator="\n")
    writer.writerow([*HEADS[:7], "member", *HEADS[7:]])
    for result in results:
        row = row_of(result)
        writer.writerow([*row[:7], "all", *row[7:]])
        if result.ring.members > 1:
            for at, member in enumerate(members_of(result)):
                writer.writerow(
                    [*row[:7], at, member.kept, member.drops, member.freezes, member.blocks, ""]
                )
    return made.getvalue()


@dataclass
class Answer:
    """What was found."""

    results: list[Result]
    least: Result | None
    rows: list[list[object]]  # what each member kept and dropped
    advice: list[Advice]
    fed: Fed
    filtered: int
    judgement: list[str]  # what the program said of the answer and of its neighbour
    keys: list[str]
    key_needs: list[dict[str, object]]
    kernel: dict[Ring, int]  # losses as a kernel rolls over, by the tool's own model
    finders: list[str]  # ringsize, model; none where the program alone was run
    pace: Pace

    def first_step(self) -> Fraction | None:
        """Of the reader, in milliseconds after the first frame."""
        return first_step(self.pace, self.results[0].ring.unit_size)


def print_words(first: str, answer: Answer) -> None:
    results = answer.results
    print(f"{first}\n")
    print(table(HEADS, [row_of(result) for result in results]))
    print()
    said = [*answer.judgement, *answer.keys, *kernel_words(results, answer.kernel)]
    print("\n".join([*verdict_of(results, answer.least, answer.first_step()), *said]))
    if (
        len({(one.ring.mode, one.ring.members) for one in results}) > 1
        or results[0].ring.members > 1
    ):
        print("\nat the smallest ring of each mode that suffices, or else its largest:\n")
        print(table(MEMBER_HEADS, answer.rows))
        print("\nthe largest member to the mean one:\n")
        print(table(["mode", "members", "packets", "bytes kept"], evenness_rows(answer.rows)))
    if answer.advice:
        print()
        print("\n".join(line for one in answer.advice for line in one.words()))
        if (
            all(one.program == "suricata" for one in answer.advice)
            and answer.least.ring.members == 1
        ):
            asked = f"--block-size 256K --tov {TCPDUMP_TIMEOUT}"
            print(f"for tcpdump and dumpcap, whose blocks have 262144 bytes: {asked}")
    print(f"\n{about_words(answer.fed.about, answer.filtered)}")


def reader_object(pace: Pace, first: Fraction | None) -> dict[str, object]:
    """The reader in numbers."""
    numbers = {"blocks": pace.blocks, "bytes": pace.bytes, "pause": pace.pause, "poll": pace.poll}
    stalls = [[float(start), float(length)] for start, length in pace.stalls]
    shown = {name: float(value) for name, value in numbers.items() if value is not None}
    return shown | {"stalls": stalls, "first_step": None if first is None else float(first)}


def ring_object(result: Result, kernel: dict[Ring, int]) -> dict[str, object]:
    """A row of the table, and what else is known of the ring."""
    drops = list(result.drops_by_phase) or [report.drops for report in result.reports]
    return dict(zip(HEADS, row_of(result))) | {
        "drops_by_phase": drops,
        "key": result.key,
        "from": result.begin,
        "by_keys": result.by_keys and asdict(result.by_keys),
        "kernel_drops": kernel.get(result.ring),
    }


def object_of(answer: Answer) -> dict[str, object]:
    """The same as one object."""
    least = answer.least
    rings = [ring_object(result, answer.kernel) for result in answer.results]
    names = [head.replace(" ", "_") for head in MEMBER_HEADS]
    made: dict[str, object] = {
        "reader": reader_object(answer.pace, answer.first_step()),
        "about": about_object(answer.fed.about, answer.filtered),
        "rings": rings,
        "least": dict(zip(HEADS, row_of(least))) if least else None,
        "is_every_millisecond": bool(least and looks_at_freezes(least)),
        "is_every_beginning": bool(least and least.begin is not None),
        "found_by": answer.finders,
        "keys": answer.key_needs,
        "members": [dict(zip(names, row)) for row in answer.rows],
        "evenness": [
            {"mode": row[0], "members": row[1], "packets": float(row[2]), "bytes": float(row[3])}
            for row in evenness_rows(answer.rows)
        ],
    }
    return made | {one.program: one.object() for one in answer.advice}
