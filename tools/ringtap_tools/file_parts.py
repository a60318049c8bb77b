"""Asks ringsize for the smallest ring over captures of any size.

A capture file has at most 32 MiB, and a CPU's capture may go on in further ones, which lines
`more C FILE` of the reader's text name. So a larger capture is given to ringsize in parts. Each is
a pipe, which is filled when ringsize opens it, so no part is on the disk. How many parts there
are has to be known before: as many as could be needed are named, and the last ones may be empty.
"""
from __future__ import annotations

import errno
import os
import threading
import time
from dataclasses import dataclass
from pathlib import Path
from typing import Callable, Iterator

from .captures import LARGEST_CAPTURE, LARGEST_RECORD, CaptureStream, is_plain, unpacked
from .clock import Pace, steps_of
from .cut_pieces import FILE_HEADER, RECORD
from .files import NANOSECONDS, Fault, Setup
from .ringsizes import Sized, answered, reader_lines, whole
from .runs import Room
from .trials import ROLLOVER, Ring

RUN = 1_048_576  # bytes that are read of a capture at once
WAIT = 0.01  # seconds until a pipe is looked at again that nobody reads yet


def needs_parts(path: Path, largest: int) -> bool:
    """Whether ringsize can't read a capture under its own name."""
    return not is_plain(path) or path.stat().st_size > largest


def bytes_of(path: Path) -> int:
    """The bytes of a capture, of gzip those that were packed."""
    if is_plain(path):
        return path.stat().st_size
    with unpacked(path) as file:
        return sum(map(len, iter(file.read, b"")))


def most_parts(size: int, largest: int) -> int:
    """How many parts a capture has at most, of which each but the last has no room for one more
    record."""
    return 1 + size // (largest - LARGEST_RECORD - RECORD.size - len(FILE_HEADER))


def parts_of(stream: CaptureStream, largest: int) -> Iterator[bytes]:
    """A capture in parts, each a capture of at most so many bytes; in the end empty ones without
    end."""
    records: list[bytes] = [FILE_HEADER]
    size = len(FILE_HEADER)
    for run in stream.runs(RUN):
        for moment, wire, frame in zip(*run):
            if size + RECORD.size + len(frame) > largest:
                yield b"".join(records)
                records, size = [FILE_HEADER], len(FILE_HEADER)
            seconds, rest = divmod(moment, NANOSECONDS)
            records += RECORD.pack(seconds, rest, len(frame), wire), frame
            size += RECORD.size + len(frame)
    yield b"".join(records)
    while True:
        yield FILE_HEADER


class Filler(threading.Thread):
    """Fills the pipes of a CPU's parts, one after another, until all are filled or it is told to
    end."""

    def __init__(
        self, pipes: list[Path], parts: Iterator[bytes], told: Callable[[int], None]
    ) -> None:
        super().__init__(daemon=True)
        self.pipes, self.parts, self.told = pipes, parts, told
        self.has_ended = threading.Event()
        self.fault: Fault | None = None

    def run(self) -> None:
        try:
            for pipe, part in zip(self.pipes, self.parts):
                file = self.opened(pipe)
                if file is None:
                    return
                with os.fdopen(file, "wb") as target:
                    target.write(part)
                self.told(len(part))
        except BrokenPipeError:
            pass  # ringsize has ended, and says why itself
        except Fault as fault:
            self.fault = fault

    def opened(self, pipe: Path) -> int | None:
        """A pipe, once it is read; None where that is no longer to come."""
        while not self.has_ended.is_set():
            try:
                file = os.open(pipe, os.O_WRONLY | os.O_NONBLOCK)
            except OSError as error:
                if error.errno != errno.ENXIO:
                    raise
                time.sleep(WAIT)
                continue
            os.set_blocking(file, True)
            return file
        return None


@dataclass(frozen=True)
class PartsAsker:
    """Asks ringsize for a setup's ring over the whole of its captures."""

    program: Path
    room: Room
    pace: Pace
    ring: Ring
    largest: int = LARGEST_CAPTURE  # bytes of a capture file

    def smallest(self, told: Callable[[int], None]) -> Sized:
        """The smallest ring for all members at every phase and beginning; NotAsked where there is
        no answer. `told` hears of the bytes of each part."""
        lines = self.lines()
        fillers = [self.filler(*one, told) for one in enumerate(self.room.setup.capture_paths())]
        first = [self.first_name(cpu, filler) for cpu, filler in enumerate(fillers)]
        more = [
            f"more {cpu} {pipe.name}"
            for cpu, filler in enumerate(fillers)
            for pipe in (filler.pipes[1:] if filler else [])
        ]
        if more:
            self.refuse_unknown(lines)
        return self.filled(first, [*lines, *more], [one for one in fillers if one])

    def lines(self) -> list[str]:
        """The reader's text, without further files."""
        lines = reader_lines(self.pace, self.ring)
        if steps_of(self.pace, self.ring.unit_size):
            begin = self.pace.begin
            lines.append("from all" if begin is None else f"from {whole(begin, '--from')}")
        return lines

    def filler(self, cpu: int, path: Path, told: Callable[[int], None]) -> Filler | None:
        """What fills the pipes of a capture; None where it is read under its own name."""
        if not needs_parts(path, self.largest):
            return None
        parts = parts_of(CaptureStream(path, None), self.largest)
        count = most_parts(bytes_of(path), self.largest)
        names = [self.room.folder / f"cpu{cpu}.part{number}" for number in range(count)]
        return Filler(names, parts, told)

    def first_name(self, cpu: int, filler: Filler | None) -> str:
        if filler:
            return filler.pipes[0].name
        path = self.room.folder / f"cpu{cpu}.pcap"
        path.symlink_to(self.room.setup.capture_paths()[cpu].resolve())
        return path.name

    def refuse_unknown(self, lines: list[str]) -> None:
        """NotAsked where ringsize doesn't know further files: it is tried on empty captures."""
        (self.room.folder / "empty").write_bytes(FILE_HEADER)
        self.write_setup(["empty"] * len(self.room.setup.cpus))
        answered(self.program, self.room, [*lines, "more 0 empty"])

    def write_setup(self, captures: list[str]) -> None:
        self.room.write_setup("sized", {"out": "nowhere", "dump": None}, captures)

    def filled(self, captures: list[str], lines: list[str], fillers: list[Filler]) -> Sized:
        """What ringsize answers while its captures come."""
        self.write_setup(captures)
        for filler in fillers:
            for pipe in filler.pipes:
                os.mkfifo(pipe)
            filler.start()
        try:
            found = answered(self.program, self.room, lines)
        finally:
            for filler in fillers:
                filler.has_ended.set()
                filler.join()
        for fault in (filler.fault for filler in fillers if filler.fault):
            raise fault
        return found


def ring_of(setup: Setup, is_v2: bool) -> Ring:
    """The ring that a setup has."""
    mode = setup.word("mode", "cpu") + ROLLOVER * ("rollover" in setup.flags)
    sizes = [setup.number(word) for word in ("block_size", "block_nr", "frame_size")]
    return Ring(mode, setup.members(), setup.number("tov", 0), *sizes, is_v2)
