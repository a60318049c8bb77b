#!/usr/bin/env python3
"""Rings of ringtap beside those of a Linux kernel: every byte of every block and slot, and every
count of the statistics.

    kernel_rings.py PROGRAM...        compares programs with this machine's kernel and the recording
    kernel_rings.py --record FOLDER   asks this machine's kernel, and writes FOLDER/rings.gz
    kernel_rings.py --list            names the cases, and says what each shows
    kernel_rings.py --spoil PROGRAM   changes each byte of the recording, and counts what is noticed

A kernel is asked in network namespaces of this script's own. Where it has no right to make them,
or where the kernel is older than 6.18, whose timers run otherwise, the recording is compared
alone. It has what a kernel gave, and its version.
"""
from __future__ import annotations

import ctypes
import gzip
import json
import multiprocessing
import os
import re
import signal
import struct
import sys
import tempfile
import time
from concurrent.futures import ThreadPoolExecutor
from dataclasses import asdict
from multiprocessing.pool import AsyncResult, Pool
from pathlib import Path
from typing import Any, Iterable, Iterator

from kernel import apart_cases, cases, filter_cases, fragment_cases, group_cases
from kernel.answers import FILTERS, QUESTIONS, REQUESTS, SENDINGS
from kernel.answers_compare import compare_answer
from kernel.compare import FREE, Tally, Wrong, compare, spoil
from kernel.live import TIMEOUTS, run_once
from kernel.plans import Case, Disturbed, Member, Record
from kernel.rows import Shown, compare_rows, unsaid
from kernel.wire import NoRight, Wire

HERE = Path(__file__).resolve().parent
RECORDING = "rings.gz"
LEAST = (6, 18)  # the kernel from which on the timers run as they do in the cases
SECONDS = 600  # that all cases together may take
WORKERS = 4
TRIES = len(TIMEOUTS)
PR_SET_PDEATHSIG = 1

CASES: list[Shown] = [
    *cases.CASES, *filter_cases.CASES, *group_cases.CASES, *fragment_cases.CASES,
    *apart_cases.CASES,
    *REQUESTS, *FILTERS, *SENDINGS, *QUESTIONS,
]
BY_NAME = {case.name: case for case in CASES}
# what may differ and is shown by a question of its own
SHOWN_ALONE = {"the other bits of `tp_status`"}
Fields = dict[str, Any]  # of a record, as JSON has them


# ---- what a kernel gave, as it is kept


def packed(case: Shown, given: Record | list[str]) -> Fields:
    if isinstance(given, Record):
        fields = asdict(given)
        for member in fields["members"]:
            member["taken"] = [data.hex() for data in member["taken"]]
        return fields
    return {"case": case.name, "kernel": os.uname().release, "answer": given}


def unpacked(fields: Fields) -> Record | list[str]:
    if "answer" in fields:
        return fields["answer"]
    members = [
        Member([bytes.fromhex(data) for data in member["taken"]], member["counts"])
        for member in fields["members"]
    ]
    return Record(**{**fields, "members": members})


def write_recording(path: Path, records: Iterable[Fields]) -> None:
    text = "".join(json.dumps(fields, separators=(",", ":")) + "\n" for fields in records)
    with open(path, "wb") as file, gzip.GzipFile("", "wb", 9, file, mtime=0) as packer:
        packer.write(text.encode("ascii"))


def read_recording(path: Path) -> list[Fields]:
    with gzip.open(path, "rt", encoding="ascii") as file:
        return [json.loads(line) for line in file]


# ---- asking the kernel of this machine, by several processes with a network each

wire: Wire | None = None  # of this process
why_no_wire = ""


def end_with_parent(by: int = signal.SIGKILL) -> None:
    """This process ends when the one that started it has ended, however that was."""
    ctypes.CDLL(None).prctl(PR_SET_PDEATHSIG, by)


def begin_worker() -> None:
    global wire, why_no_wire
    end_with_parent()
    signal.signal(signal.SIGTERM, signal.SIG_DFL)
    signal.signal(signal.SIGINT, signal.SIG_IGN)
    try:
        wire = Wire()
    except (NoRight, OSError) as why:
        why_no_wire = str(why)


def ask(name: str, attempt: int) -> tuple[str, Any]:
    """What the kernel gave in a case: `record` with it, or `disturbed` or `skipped` with why."""
    case = BY_NAME[name]
    if wire is None:
        return "skipped", why_no_wire
    try:
        if not isinstance(case, Case):
            return "record", packed(case, case.answer(wire))
        if not set(case.where()) <= set(wire.cpus):
            return "skipped", f"it needs the CPUs {', '.join(map(str, case.where()))}"
        return "record", packed(case, run_once(wire, case, TIMEOUTS[attempt] * (1 + case.members)))
    except NoRight as why:
        return "skipped", str(why)
    except Disturbed as why:
        return "disturbed", str(why)
    except OSError as why:  # of a frame that doesn't come through too
        return "disturbed", f"{type(why).__name__}: {why}"


class Asker:
    """The processes that ask the kernel, and the time that is left for them."""

    def __init__(self, pool: Pool) -> None:
        self.pool = pool
        self.until = time.monotonic() + SECONDS
        self.unjudged: dict[str, str] = {}  # the cases without a record, and why

    def ask_all(self, names: list[str], attempt: int) -> Iterator[tuple[str, Fields]]:
        """Each case's record. A case that was disturbed is tried again, with longer time-outs."""
        answers: list[tuple[str, AsyncResult]] = [
            (name, self.pool.apply_async(ask, (name, attempt)))
            for name in names
        ]
        again = []
        for name, answer in answers:
            try:
                kind, given = answer.get(max(self.until - time.monotonic(), 0))
            except multiprocessing.TimeoutError:
                kind, given = "skipped", f"no time was left after {SECONDS} seconds"
            if kind == "record":
                self.unjudged.pop(name, None)
                yield name, given
            else:
                self.unjudged[name] = given
                again += [name] if kind == "disturbed" else []
        if again and attempt + 1 < TRIES:
            yield from self.ask_all(again, attempt + 1)


def why_not() -> str | None:
    """Why the kernel of this machine isn't asked."""
    numbers = tuple(map(int, re.findall(r"\d+", os.uname().release)[:2]))
    if numbers < LEAST:
        return f"its kernel {os.uname().release} is older than {'.'.join(map(str, LEAST))}"
    with multiprocessing.get_context("fork").Pool(1, end_with_parent) as pool:
        return pool.apply(try_wire)


def try_wire() -> str | None:
    try:
        Wire()
    except (NoRight, OSError) as why:
        return str(why)
    return None


def started_pool() -> Pool:
    return multiprocessing.get_context("fork").Pool(
        min(WORKERS, len(os.sched_getaffinity(0))), begin_worker
    )


# ---- comparing


def judge(fields: Fields, program: str, room: Path) -> tuple[str, str | None, Tally]:
    """A case's name, what is wrong in it, if something is, and how much was compared."""
    case, given, tally = BY_NAME[fields["case"]], unpacked(fields), Tally()
    with tempfile.TemporaryDirectory(dir=room) as here:
        try:
            if isinstance(given, Record):
                compare(case, given, program, Path(here), tally)
            else:
                compare_answer(case, given, program, Path(here), tally)
        except Wrong as why:
            return case.name, str(why), tally
        except (struct.error, LookupError) as why:
            return case.name, f"what the kernel gave can't be read: {why!r}", tally
    return case.name, None, tally


def judge_all(records: Iterable[Fields], program: str, room: Path) -> tuple[dict[str, str], Tally]:
    """The cases that are wrong, with why, and how much was compared."""
    wrong, total = {}, Tally()
    with ThreadPoolExecutor(WORKERS) as threads:
        try:
            for name, why, tally in threads.map(
                lambda fields: judge(fields, program, room), records
            ):
                total.add(tally)
                if why:
                    wrong[name] = why
        except BaseException:  # as at a signal: what wasn't begun isn't
            threads.shutdown(wait=False, cancel_futures=True)
            raise
    return wrong, total


def told(tally: Tally) -> str:
    return (
        f"{tally.cases} cases agree, {tally.blocks} blocks and {tally.slots} slots in each of "
        f"{tally.bytes} bytes, and "
        f"{tally.counts} counts; {tally.apart} differ as told; {tally.answers} answers"
    )


def compare_live(programs: list[str], room: Path) -> int:
    """Asks the kernel and compares each program with it. A case that is wrong is asked once
    more, with long time-outs: what came in between need not show. Wrong twice is wrong."""
    failures = 0
    with started_pool() as pool:
        asker = Asker(pool)
        records = dict(asker.ask_all(list(BY_NAME), 0))
        tallies = {program: judge_all(records.values(), program, room) for program in programs}
        suspects = sorted(set().union(*(wrong for wrong, _ in tallies.values())))
        again = dict(asker.ask_all(suspects, TRIES - 2))
    for program, (_, tally) in tallies.items():
        wrong, more = judge_all(again.values(), program, room)
        tally.add(more)
        failures += len(wrong)
        for name, why in wrong.items():
            print(f"{name}, {program}: {why}")
        print(f"{program} beside this kernel, {os.uname().release}: {told(tally)}")
    if suspects:
        print(f"asked twice: {', '.join(suspects)}")
    for why in sorted(set(asker.unjudged.values())):
        print(
            f"not judged, {why}: "
            f"{', '.join(name for name, said in asker.unjudged.items() if said == why)}"
        )
    return failures


def not_shown(tally: Tally) -> list[str]:
    """What may differ and differs nowhere in the recording, and what it says nothing of."""
    unused = {free.row for free in FREE} - tally.used - SHOWN_ALONE
    return [
        f"nothing of the recording differs by '{row}'"
        for row in sorted(unused)
    ] + unsaid(tally)


def compare_recorded(program: str, room: Path) -> int:
    """Compares a program with the recording. It has to have every case, and each thing that may
    differ has to differ somewhere."""
    records = read_recording(HERE / RECORDING)
    names = {fields["case"] for fields in records}
    complaints = [f"{name}: the recording lacks it" for name in BY_NAME if name not in names]
    complaints += [
        f"{name}: recorded, but there is no such case"
        for name in names if name not in BY_NAME
    ]
    wrong, tally = judge_all(
        [fields for fields in records if fields["case"] in BY_NAME], program, room
    )
    complaints += [f"{name}, recorded, {program}: {why}" for name, why in wrong.items()]
    complaints += not_shown(tally)
    for line in complaints:
        print(line)
    kernels = ", ".join(sorted({fields["kernel"] for fields in records}))
    print(f"{program} beside the recorded kernel, {kernels}: {told(tally)}")
    print(
        f"changed and noticed: {tally.changes} bytes of {tally.blocks + tally.slots} blocks and "
        f"slots, {tally.changed_counts} counts"
    )
    return len(complaints)


# ---- the commands


def record(folder: Path) -> int:
    why = why_not()
    if why:
        sys.exit(f"kernel_rings.py: {why}")
    with started_pool() as pool:
        asker = Asker(pool)
        found = dict(asker.ask_all(list(BY_NAME), 0))
    for name, said in asker.unjudged.items():
        print(f"{name} isn't recorded: {said}")
    write_recording(folder / RECORDING, [found[name] for name in BY_NAME if name in found])
    print(f"{len(found)} cases recorded")
    return len(asker.unjudged)


def list_cases() -> int:
    for case in CASES:
        print(case.name, getattr(case, "shows", ""), sep="\t")
    return 0


def spoil_all(program: str, room: Path) -> int:
    """Changes the recording in each byte of its blocks and slots."""
    counts = [0, 0, 0]
    for fields in read_recording(HERE / RECORDING):
        case, given = BY_NAME[fields["case"]], unpacked(fields)
        if isinstance(case, Case) and isinstance(given, Record) and case.apart is None:
            counts = [a + b for a, b in zip(counts, spoil(case, given, program, room))]
    print(
        "changed {}, noticed {}, of the others where something may differ {}".format(*counts)
    )
    return counts[0] - counts[1] - counts[2]


def compare_all(programs: list[str], room: Path) -> int:
    complaints = compare_rows(CASES, [free.row for free in FREE])
    for line in complaints:
        print(line)
    failures = len(complaints) + sum(compare_recorded(program, room) for program in programs)
    why = why_not()
    if why:
        print(f"skipped: {Path(__file__).name} doesn't ask the kernel of this machine: {why}")
        return failures
    return failures + compare_live(programs, room)


def main(words: list[str]) -> int:
    signal.signal(signal.SIGTERM, lambda *_: sys.exit(143))
    end_with_parent(signal.SIGTERM)
    if words == ["--list"]:
        return list_cases()
    if len(words) == 2 and words[0] == "--record":
        return record(Path(words[1]))
    if not words or words[0].startswith("--") and (words[0] != "--spoil" or len(words) != 2):
        sys.exit(__doc__)
    with tempfile.TemporaryDirectory() as room:
        if words[0] == "--spoil":
            return spoil_all(words[1], Path(room))
        return compare_all(words, Path(room))


if __name__ == "__main__":
    sys.exit(main(sys.argv[1:]) > 0)
