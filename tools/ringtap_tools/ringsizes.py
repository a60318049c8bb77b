"""Asks ringsize, a program whose answer is proved, for the smallest ring that never freezes, or of
slots loses nothing, at any phase of the timer and any beginning of the reader, each to the whole
millisecond.

What it is asked is a setup and a reader's text (docs/reference.md, section 13). A reader that has
no such text isn't asked for, and the reason is said.
"""
from __future__ import annotations

import os
import re
import sys
import threading
import time
from dataclasses import dataclass
from fractions import Fraction
from pathlib import Path

from .clock import MILLISECOND, Pace, steps_of
from .files import Fault
from .runs import Room, run_program, say_how_long, status_words
from .schedule import DEFAULT_TIMEOUT
from .search import Least, Model
from .trials import BLOCKS, SLOTS, Ring, Trials, changes_of

GROUP_LINE = r"group {}s (\d+) phase (\d+) from (\d+)(?: beyond)?"
NO_ANSWER = re.compile(r"(?:setup|reader): .* has no answer yet")
ASKED = "`ringsize` found it"  # so begin the words where it was asked
# lines of the reader's text
ALL_PHASES, ONE_PHASE, SLOTS_LINE = "phases all", "phase 0", "slots"
REFUSED = 2  # the status of a setup that is refused
FEW_BEGINS = 50  # by which it is estimated how long all take


class NotAsked(Exception):
    """Why ringsize gives no answer here, in words."""


@dataclass(frozen=True)
class Sized:
    """The smallest ring of all members, in blocks or slots, and a phase and a beginning at which it
    has to be so large, both in milliseconds."""

    count: int
    phase: int
    begin: int


def ringsize_of(program: Path) -> Path | None:
    """The ringsize that RINGSIZE names, or the one beside ringtap."""
    named = os.environ.get("RINGSIZE")
    path = Path(named).resolve() if named else program.with_name("ringsize")
    is_there = os.access(path, os.X_OK) and not path.is_dir()
    if named and not is_there:
        raise Fault(f"RINGSIZE: {named} isn't a program")
    return path if is_there else None


def whole(number: Fraction, what: str) -> int:
    if number.denominator != 1:
        raise NotAsked(f"ringsize takes whole numbers alone, and {what} is {float(number):g}")
    return number.numerator


def pace_line(pace: Pace) -> str:
    """The line that says the reader's pace."""
    if pace.pause:
        return f"pause {whole(pace.pause, '--pause')}"
    if pace.poll is not None:
        return f"poll {whole(pace.poll, '--poll')}"
    if pace.blocks:
        return f"blocks {whole(pace.blocks, '--blocks')}"
    raise NotAsked("ringsize has no reader of bytes" if pace.bytes else "nobody reads")


def reader_lines(pace: Pace, ring: Ring) -> list[str]:
    """The reader's text without beginnings. The pace is its first line, and its last one says that
    each phase is tried, or that the ring has slots and so no timer."""
    if pace.speed != 1 or pace.packets or pace.bits:
        raise NotAsked("ringsize takes the captures' own times alone")
    ticks = None if ring.is_v2 else pace.tick
    if ticks is not None and ticks != (ring.timeout or DEFAULT_TIMEOUT):
        raise NotAsked("ringsize has a tick every time-out")
    lines = [pace_line(pace)]
    for start, length in pace.stalls:
        lines.append(f"stall {whole(start, '--stall')} {whole(length, '--stall')}")
    return [*lines, SLOTS_LINE if ring.is_v2 else ALL_PHASES]


class Asker:
    """Asks for captures in a room that have their own times."""

    def __init__(self, program: Path, room: Room, captures: list[str], has_flag: bool) -> None:
        self.program, self.room, self.has_flag = program, room, has_flag
        self.captures = captures

    def least(self, ring: Ring, pace: Pace, key: str | None, is_longer: bool) -> Sized:
        """The smallest ring for all members; NotAsked where there is no answer."""
        if is_longer:
            raise NotAsked("ringsize takes the captures' own lengths alone")
        lines = reader_lines(pace, ring)
        changes = changes_of(ring, self.has_flag, "nowhere") | ({"key": key} if key else {})
        self.room.write_setup("sized", changes, self.captures)
        steps = steps_of(pace, ring.unit_size)
        if steps is None:
            return self.answer(lines)
        if pace.begin is not None:
            return self.answer([*lines, f"from {whole(pace.begin, '--from')}"])
        seconds = self.estimate(lines, ring, -(-steps.period // MILLISECOND))
        with Waiting("ringsize", seconds):
            return self.answer([*lines, "from all"])

    def estimate(self, lines: list[str], ring: Ring, begins: int) -> float:
        """About how many seconds all take, by one try and by some."""
        phases = 1 if ring.is_v2 else ring.timeout or DEFAULT_TIMEOUT
        if phases * begins < 1000:
            return 0.0
        one, some, tries = few_tries(lines, ring)
        moments = [time.monotonic()]
        for text in (one, some):
            self.answer(text)
            moments.append(time.monotonic())
        each = max(0.0, moments[2] - 2 * moments[1] + moments[0]) / tries
        seconds = moments[1] - moments[0] + each * phases * begins
        words = f"{phases} phases and {begins} beginnings" if phases > 1 else f"{begins} beginnings"
        say_how_long(f"ringsize: {words}", seconds)
        return seconds

    def answer(self, lines: list[str]) -> Sized:
        return answered(self.program, self.room, lines)


def few_tries(lines: list[str], ring: Ring) -> tuple[list[str], list[str], int]:
    """A reader's text with one try, one with some, and how many these are: the phases of blocks,
    and of slots a few beginnings of another reader."""
    if ring.is_v2:
        few = [f"pause {FEW_BEGINS}", *lines[1:]]
        return [*few, "from 0"], [*few, "from all"], FEW_BEGINS
    text = [*lines, "from 0"]
    one = [ONE_PHASE if line == ALL_PHASES else line for line in text]
    return one, text, ring.timeout or DEFAULT_TIMEOUT


def answered(program: Path, room: Room, lines: list[str]) -> Sized:
    """What ringsize answers of `sized`, a setup in a room, and of a reader's text."""
    (room.folder / "reader").write_text("\n".join([*lines, ""]))
    done = run_program(program, ["sized", "reader"], room.folder, dict(os.environ))
    kind = SLOTS if SLOTS_LINE in lines else BLOCKS
    if done.returncode == REFUSED:
        raise Fault(room.refused(done, kind.command, "sized", "reader"))
    if done.returncode == 3 and (refused := NO_ANSWER.search(done.stdout)):
        raise NotAsked(f"ringsize says: {refused[0]}")
    group = GROUP_LINE.format(kind.unit)
    found = [re.fullmatch(group, line) for line in done.stdout.splitlines()]
    told = [one for one in found if one]
    if done.returncode or len(told) != 1:
        said = f"{status_words(done.returncode)} (status {done.returncode})"
        raise Fault(f"{program}: {said}: {done.stdout.strip() or 'it printed nothing'}")
    return Sized(*map(int, told[0].groups()))


class Finder:
    """Finds smallest rings by ringsize, or where that isn't there or has no answer by the model."""

    def __init__(self, asker: Asker | None) -> None:
        self.asker = asker

    def find(self, model: Model, trials: Trials, ring: Ring, mine: Least) -> tuple[Least, str]:
        """The smallest ring, of the key of one that the model found, and who found it, in words."""
        pace = model.pace
        try:
            if not self.asker:
                raise NotAsked("ringsize isn't there")
            one = self.asker.least(ring, pace, mine.key, trials.captures is not None)
        except NotAsked as reason:
            return mine, f"{reason}, so the tool's own model found it"
        if steps_of(pace, ring.unit_size) is None or pace.begin is not None:
            return Least(one.count, one.phase, mine.key), ASKED
        found = Least(one.count, one.phase, mine.key, one.begin)
        whose = f"for a reader that begins {one.begin} ms after the first frame"
        return found, f"{ASKED} {whose},"


class Waiting:
    """The seconds so far, on standard error where that is a terminal."""

    def __init__(self, what: str, seconds: float) -> None:
        self.what, self.seconds, self.done = what, seconds, threading.Event()
        self.thread = threading.Thread(target=self.show, daemon=True)
        self.is_shown = seconds > 1 and sys.stderr.isatty()

    def __enter__(self) -> None:
        if self.is_shown:
            self.thread.start()

    def __exit__(self, *_: object) -> None:
        self.done.set()
        if self.is_shown:
            self.thread.join()
            print(file=sys.stderr)

    def show(self) -> None:
        begin = time.monotonic()
        while not self.done.wait(0.5):
            so_far = f"{time.monotonic() - begin:,.0f} of about {self.seconds:,.0f} s"
            print(f"\r{self.what}: {so_far}", end="", file=sys.stderr, flush=True)
