"""What the tools read beside captures: setups and texts.

Formats and limits are those of docs/reference.md. The program alone decides what it accepts: here
only what a tool itself needs is tested, and what is wrong becomes a `Fault`, a sentence that names
the file and the line or byte.
"""
from __future__ import annotations

import os
import signal
import sys
from dataclasses import dataclass, field
from pathlib import Path
from typing import Callable, TextIO

LARGEST_TEXT = 1_048_576  # bytes of a setup or a schedule
LARGEST_NAME = 255  # bytes of a name in a setup
LARGEST_NUMBER = 4_294_967_295
MOST_MEMBERS = 8
MODES = ("hash", "lb", "cpu", "rollover", "qm")
NANOSECONDS = 1_000_000_000
UTF8_MARK = b"\xef\xbb\xbf"
CAPTURE_MAGICS = tuple(
    bytes.fromhex(magic) for magic in ("d4c3b2a1", "a1b2c3d4", "4d3cb2a1", "a1b23c4d", "0a0d0d0a")
)


class Fault(Exception):
    """A sentence that says what is wrong, and where."""


def run_main(main: Callable[[list[str]], int], fault_status: int = 1) -> None:
    """Runs a tool; a fault is printed on standard error, with a status of its own. A signal lets
    the tool clear up first."""
    for number in (signal.SIGTERM, signal.SIGHUP):
        signal.signal(number, end_by_signal)
    for stream in (sys.stdout, sys.stderr):
        # names are bytes, and go out as they came in
        stream.reconfigure(encoding="utf-8", errors="surrogateescape")
    status, said = fault_status, ""
    try:
        status = main(sys.argv[1:])
        sys.stdout.flush()
    except Fault as fault:
        said = str(fault)
    except BrokenPipeError:
        silence(sys.stdout)
    except OSError as error:  # as of a disk that is full
        silence(sys.stdout)
        said = f"{error.filename or 'standard output'}: {error.strerror}"
    except KeyboardInterrupt:
        status = 130
    if said:
        print(f"{Path(sys.argv[0]).name}: {said}", file=sys.stderr)
    sys.exit(status)


AT_SIGNAL: list[Callable[[], None]] = []  # what is to be done before a signal ends the tool


def end_by_signal(number: int, _: object) -> None:
    for call in AT_SIGNAL:
        call()
    sys.exit(128 + number)


def silence(stream: TextIO) -> None:
    """Sends what a stream still holds to nobody, so that its end is no second error."""
    os.dup2(os.open(os.devnull, os.O_WRONLY), stream.fileno())


def read_bytes(path: Path) -> bytes:
    try:
        return path.read_bytes()
    except OSError as error:
        raise Fault(f"{path}: can't be read: {error.strerror}") from None


@dataclass(frozen=True)
class CpuLine:
    """A `cpu` line: the capture's name as it stands there, its queue, and the line's number."""

    name: str
    queue: int
    line: int


@dataclass
class Setup:
    """A setup: its lines as they stand, and what the tools want to know of them."""

    path: Path
    lines: list[str]
    # the words after each first word but `cpu` and `flag`
    values: dict[str, list[str]] = field(default_factory=dict)
    places: dict[str, int] = field(default_factory=dict)  # the number of each such line
    cpus: list[CpuLine] = field(default_factory=list)
    flags: set[str] = field(default_factory=set)

    def number(self, word: str, default: int | None = None) -> int:
        """The one number of a line."""
        if word not in self.values:
            if default is None:
                raise Fault(f"{self.path}: has no line `{word}`")
            return default
        values = self.values[word]
        number = number_of(values[0]) if len(values) == 1 else None
        if number is None:
            raise Fault(f"{self.path}, line {self.places[word]}: `{word}` needs one number")
        return number

    def word(self, word: str, default: str | None = None) -> str | None:
        """The one word of a line."""
        if word not in self.values:
            return default
        if len(self.values[word]) != 1:
            raise Fault(f"{self.path}, line {self.places[word]}: `{word}` needs one value")
        return self.values[word][0]

    def members(self) -> int:
        """How many members the group has. The program refuses none, and no tool counts with
        none."""
        count = self.number("members", 1)
        if not count:
            raise Fault(f"{self.path}, line {self.places['members']}: a group has a member or more")
        return count

    def capture_paths(self) -> list[Path]:
        """Where the captures are; names count from the folder in which the tool runs, as they do
        for ringtap."""
        if not self.cpus:
            raise Fault(f"{self.path}: has no line `cpu`")
        for cpu in self.cpus:
            if cpu.line and not os.path.lexists(cpu.name):
                where = (
                    ""
                    if os.path.isabs(cpu.name)
                    else f": names count from the folder {os.getcwd()}"
                )
                raise Fault(f"{self.path}, line {cpu.line}: {cpu.name} isn't there{where}")
        return [Path(cpu.name) for cpu in self.cpus]

    def with_changes(
        self, changes: dict[str, str | None], captures: list[str] | None = None
    ) -> str:
        """The text of this setup with other values, and with other names of captures. A word with
        None is left out; a flag is a word of its own, as `flag rollover`. Each line keeps its
        number: one that is left out becomes a comment, and new lines stand at the end."""
        left = dict(changes)
        names = iter(captures or [])
        made = []
        for text in self.lines:
            word, *values = words_of(text) or ["#"]
            if word == "flag":
                word = " ".join([word, *values])
            if word == "cpu" and captures:
                text = " ".join(["cpu", next(names), *values[1:]])
            elif word in changes:
                value = left.pop(word, None)
                text = f"# {text}" if value is None else f"{word} {value}".rstrip()
            made.append(text)
        made += [f"{word} {value}".rstrip() for word, value in left.items() if value is not None]
        return "\n".join(made) + "\n"


def words_of(line: str) -> list[str]:
    """The words of a line of a text: they stand between spaces and tabs, and other blanks are no
    blanks there."""
    return [word for word in line.replace("\t", " ").split(" ") if word]


def number_of(text: str) -> int | None:
    """A number as the texts have it, or None."""
    if not (text.isascii() and text.isdigit() and len(text) <= 10):
        return None
    return int(text) if int(text) <= LARGEST_NUMBER else None


def is_name(name: str) -> bool:
    """Whether a file can be named so in a setup."""
    is_plain = name.isascii() and name.isprintable() and " " not in name
    return is_plain and 1 <= len(name) <= LARGEST_NAME


def refuse_name(name: str) -> None:
    """Ends a tool that is to write a setup in which a file would have to be named so."""
    if not is_name(name):
        raise Fault(
            f"the name {name!r} can't stand in a setup: ASCII without blanks, of at most"
            f" {LARGEST_NAME} bytes"
        )


def read_setup(path: Path) -> Setup:
    """Reads a setup. What stands twice, and a line with a byte that isn't ASCII, is left for the
    program to refuse."""
    data = read_bytes(path)
    if len(data) > LARGEST_TEXT:
        raise Fault(
            f"{path}: has {len(data)} bytes, and ringtap reads setups of at most {LARGEST_TEXT}"
        )
    refuse_others(path, data)
    # so that each byte is written again as it was
    lines = data.decode("utf-8", "surrogateescape").split("\n")
    if lines[-1] == "":
        lines.pop()
    setup = Setup(path, [line.removesuffix("\r") for line in lines])
    for number, line in enumerate(setup.lines, 1):
        word, *values = words_of(line) or ["#"]
        if word == "cpu":
            setup.cpus.append(cpu_line(path, number, values, len(setup.cpus)))
        elif word == "flag":
            setup.flags.update(values)
        elif not word.startswith("#"):
            setup.values.setdefault(word, values)
            setup.places.setdefault(word, number)
    return setup


def refuse_others(path: Path, data: bytes) -> None:
    """Ends a tool that was given a capture for a setup, or a text with a mark that no setup has."""
    if data.startswith(UTF8_MARK):
        mark = "a UTF-8 mark (the bytes ef bb bf)"
        raise Fault(f"{path}, line 1: begins with {mark}: save it without one, as ASCII")
    if data[:4] in CAPTURE_MAGICS or data.startswith(b"\x1f\x8b"):
        raise Fault(
            f"{path}: is a capture, and a setup is wanted: one names it by a line `cpu {path}`"
        )


def cpu_line(path: Path, line: int, values: list[str], cpu: int) -> CpuLine:
    queue = number_of(values[1]) if len(values) == 2 else cpu
    if len(values) not in (1, 2) or queue is None:
        raise Fault(
            f"{path}, line {line}: `cpu` needs the name of a capture, and the number of a queue or"
            " nothing"
        )
    return CpuLine(values[0], queue, line)


def output_names(setup: Setup, command: str) -> list[str]:
    """The names of the files that a command saves."""
    prefix = setup.word("out", "out")
    if command == "check":
        return []
    if command == "send":
        return [f"{prefix}.tx.pcap"]
    kinds = ["pcap"] + ["blk"] * ("dump" in setup.values) + ["tx.pcap"] * (command == "forward")
    return [
        f"{prefix}.{member}.{kind}"
        for member in range(min(setup.number("members", 1), MOST_MEMBERS))
        for kind in kinds
    ]
