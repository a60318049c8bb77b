"""What the checks of the tools have in common: inputs in a folder, and a tool's answer to words."""
from __future__ import annotations

import struct
import sys
import xml.etree.ElementTree
from collections.abc import Iterable
from dataclasses import dataclass
from pathlib import Path
from typing import NamedTuple

import running
from places import TOP
from second.capture_bytes import header, record

SHOWN = Path(__file__).parent / "packet_sockets.txt"  # what ss printed
BLOCK = "block_size 4096\nblock_nr 2\nframe_size 2048\nframe_nr 4\n"


class Answer(NamedTuple):
    """What is printed, what is said on standard error, and the status or that it doesn't end."""

    printed: str
    said: str
    status: int | str | None


def refused(name: str, sentence: str) -> Answer:
    """The answer of a tool that ends with status 1 and this sentence."""
    return Answer("", f"{name}: {sentence}\n", 1)


@dataclass(frozen=True)
class Here:
    """A folder in which tools run, and the program that they run."""

    path: Path
    program: Path

    def answer(self, words: list[str | Path], folder: Path | None = None) -> Answer:
        """What a run answers, in the folder or another one."""
        done, why = running.run(words, cwd=folder or self.path, text=True)
        return Answer(done.stdout, done.stderr, done.returncode) if done else Answer("", "", why)

    def tool(self, name: str, *words: object) -> Answer:
        """What a tool answers."""
        return self.answer([sys.executable, "-B", TOP / "tools" / name, *map(str, words)])

    def with_program(self, name: str, *words: object) -> Answer:
        """What a tool answers that runs the program."""
        return self.tool(name, *words, "--program", self.program)

    def capture(self, name: str, frames: Iterable[tuple[int, bytes]]) -> None:
        """Writes a capture of frames, each with its time in microseconds after 1,000 seconds."""
        self.saved(name, header() + b"".join(record_at(time, data) for time, data in frames))

    def text(self, name: str, words: str) -> str:
        """Writes a text, and gives its name."""
        (self.path / name).write_text(words)
        return name

    def saved(self, name: str, data: bytes) -> str:
        """Writes a file, and gives its name."""
        (self.path / name).write_bytes(data)
        return name

    def titles(self, name: str) -> list[str | None]:
        """What the marks of a picture stand for."""
        tree = xml.etree.ElementTree.parse(self.path / name)
        return [title.text for title in tree.iter("{http://www.w3.org/2000/svg}title")]


def record_at(time: int, data: bytes, wire: int | None = None) -> bytes:
    """A record of a pcap file; the time is in microseconds after 1,000 seconds."""
    seconds, rest = divmod(time, 1_000_000)
    return record(data, sec=1000 + seconds, fraction=rest, original=wire)


def frame(number: int, size: int = 60) -> bytes:
    """A frame of its own number, of no known protocol."""
    return (bytes(12) + b"\x88\xb5" + number.to_bytes(4, "big")).ljust(size, b"\0")


def datagram(ident: int, offset: int, is_last: bool, data: bytes) -> bytes:
    """A fragment of a UDP datagram; its place is in bytes."""
    flags = offset // 8 | (0 if is_last else 0x2000)
    head = struct.pack(">BBHHHBBH", 0x45, 0, 20 + len(data), ident, flags, 64, 17, 0) + bytes(
        [10, 0, 0, 1, 10, 0, 0, 2]
    )
    return bytes(12) + b"\x08\x00" + head + data


def datagram_between(left: tuple[int, int], right: tuple[int, int], size: int) -> bytes:
    """A UDP datagram between two ends, each the last byte of an address and a port."""
    head = struct.pack(">BBHHHBBH", 0x45, 0, 28 + size, 0, 0, 64, 17, 0)
    ends = bytes([10, 0, 0, left[0], 10, 0, 0, right[0]])
    ports = struct.pack(">HHHH", left[1], right[1], 8 + size, 0)
    return bytes(12) + b"\x08\x00" + head + ends + ports + bytes(size)


def rows(printed: str) -> list[list[str]]:
    """The rows of the first table that ring_size.py prints."""
    lines = printed.split("\n")
    return [line.split() for line in lines[3 : lines.index("", 3)]]
