"""Reads the scenarios of crates/scenario_runs/data, whose form crates/scenario_runs/FORM.md
says, apart from that crate's code.

A `Scenario` gives what stands in its files before the command, and what comes of the command:
lines, files, tries and notes.
"""
from __future__ import annotations

import re
from collections.abc import Callable, Iterator
from dataclasses import dataclass
from pathlib import Path

from places import TOP
from second import capture_bytes
from second.capture_bytes import record
from scenarios.fields import field_bytes
from scenarios.forms import WORDS, Slip, check_value, key_of, member_parts, parted
from scenarios.spelling import meant

Lines = list[str]

TEXTS = {"filter": "f.ddd", "sched": "sched", "ticks": "t.txt"}
LARGEST_CAPTURE = 33_554_432
# The words of a setup, as the first table of docs/reference.md has them.
SETUP_WORDS = re.findall(
    r"^\| `(\w+)",
    (TOP / "docs/reference.md").read_text(encoding="utf-8").partition(
        "| Line | Its value |"
    )[2].partition("\n\n")[0],
    re.M
)


def repeated(word: str) -> Lines:
    """A word that may end with xN, as often as that says."""
    front, _, times = word.partition("x")
    return [front] * int(times or 1)


def repeated_line(line: str) -> str:
    """A line whose last word may be xN, as often as that says."""
    found = re.fullmatch(r"(.*) x(\d+)", line)
    return (found[1] + "\n") * int(found[2]) if found else line + "\n"


def bytes_of(words: Lines) -> bytes:
    """The bytes of hexadecimal digits, of which a word may be repeated."""
    return b"".join(bytes.fromhex(digits) for word in words for digits in repeated(word))


@dataclass(frozen=True)
class Cpu:
    """What is said of a CPU: its tries, and how many bytes its capture gave."""

    tries: str
    given: int


@dataclass(frozen=True)
class Member:
    """What is said of a member: its notes, the bytes of its file, and the status and length of
    each block."""

    notes: str
    output: bytes
    blocks: list[tuple[int, int]]


class Scenario:
    """The lines of a scenario, and of those that it is like."""

    def __init__(self, name: Line, layers: list[list[Line]]) -> None:
        self.name, self.layers = name, layers

    def lines_of(self, word: str) -> list[tuple[Line, str]]:
        """The values of a word, each with its line: those of its own lines, or else those of the
        one that it is like. A line with the word alone says that there is nothing."""
        for lines in self.layers:
            found = [line for line in lines if line.word() == word]
            if found:
                return [(line, part) for line in found for part in line.parts() if part]
        return []

    def values(self, word: str) -> Lines:
        """What is said of a word, between bars."""
        return [value for _, value in self.lines_of(word)]

    def value(self, word: str, default: str = "") -> str:
        return (self.values(word) or [default])[0]

    def named(self, word: str) -> dict[str, str]:
        """What the lines of a word say of each name."""
        return {value.split()[0]: value.partition(" ")[2].strip() for value in self.values(word)}

    def text(self, *words: str) -> str:
        """A text of the lines that are said."""
        return "".join(repeated_line(value) for word in words for value in self.values(word))

    def command(self) -> Lines:
        return ["" if word == "''" else word for word in self.value("run").split()]

    def first_word(self) -> str:
        return (self.command() or [""])[0]

    def is_on_threads(self) -> bool:
        return self.first_word() in ("capture", "forward") and not self.values("plain")

    # What stands in the files before the command.

    def frame(self, index: int, word: str) -> bytes:
        name, _, length = word.rpartition(":")
        front = bytes.fromhex(self.named("bytes")[name]) if name else b""
        return front.ljust(int(length), bytes([index if index < 256 else 0]))

    def frames(self, words: Lines) -> list[bytes]:
        single = [frame for word in words for frame in repeated(word)]
        return [self.frame(index, word) for index, word in enumerate(single)]

    def captures(self) -> list[tuple[str, list[bytes]]]:
        """The name and the frames of each capture that a line `pcap` says."""
        return [(value.split()[0], self.frames(value.split()[1:])) for value in self.values("pcap")]

    def whole_captures(self) -> Iterator[tuple[str, bytes]]:
        tails = self.named("tail")
        for name, frames in self.captures():
            data = capture_bytes.header() + b"".join(map(record, frames))
            yield name, data + bytes_of(tails.get(name, "").split())
        raw: dict[str, bytes] = {}
        for value in self.values("raw"):
            name, *words = value.split()
            raw[name] = raw.get(name, b"") + bytes_of(words)
        yield from raw.items()

    def capture_files(self) -> list[tuple[str, bytes]]:
        """The captures as they can be read: cut, and of those without an end more than is ever
        read."""
        cuts, endless, files = self.named("cut"), self.named("endless"), []
        for name, data in self.whole_captures():
            data = data[: int(cuts.get(name, len(data)))]
            if name in endless:
                again = data[int(endless[name]) :]
                data += again * (LARGEST_CAPTURE // len(again) + 1)
            files.append((name, data))
        return files

    def inputs(self) -> dict[str, bytes]:
        """The files that the command finds."""
        files = {"conf": self.text("conf", "with")}
        files |= {
            name: self.text(word) for word,
            name in TEXTS.items() if word != "ticks" or self.values(word)
        }
        return {name: text.encode() for name, text in files.items()} | dict(self.capture_files())

    # What comes of the command.

    def status(self) -> int:
        return int(self.value("status", "0").split()[0])

    def lines(self) -> str:
        return self.text(">")

    def printed_by(self) -> list[Line]:
        """For each printed line the one that says it."""
        return [
            line
            for line, part in self.lines_of(">") for _ in repeated_line(part).splitlines()
        ]

    def printed(self) -> str:
        """The lines as far as they were taken, and one more where memory was refused."""
        lines = self.lines()
        return lines[: int(self.value("taken", str(len(lines))))] + (
            "out of memory\n" if self.status() == 7 else ""
        )

    def has_report(self) -> bool:
        """Whether the report is said."""
        return bool(self.values("cpu")) and self.status() != 7 and self.value("report") != "any"

    def cpus(self) -> list[Cpu]:
        files, found = [data for _, data in self.capture_files()], []
        for value in self.values("cpu"):
            index, rest = value.split(" ", 1)
            tries, _, given = rest.partition(" given ")
            found.append(Cpu(tries.strip().replace("-", ""), int(given or len(files[int(index)]))))
        return found

    def kept_frames(self) -> list[list[bytes]]:
        """The frames that the words of members and of `sent` count, capture by capture."""
        frames = [frames for _, frames in self.captures()] or [[]]
        other = self.values("frames")
        return [self.frames(other[0].split()), *frames[1:]] if other else frames

    def records(self, words: Lines, sec: int, nsec: int) -> bytes:
        """The file of these frames, each at this second and nanosecond."""
        captures = self.kept_frames()
        records = []
        for word in words:
            frames, _, most = word.partition("/")
            capture, _, indices = frames.rpartition(".")
            first, _, last = indices.partition("-")
            for index in range(int(first), int(last or first) + 1):
                frame = captures[int(capture or 0)][index]
                records.append(
                    record(
                        frame[: int(most or len(frame))], sec=sec, fraction=nsec,
                        original=len(frame)
                    )
                )
        return capture_bytes.output(records)

    def members(self) -> list[Member]:
        found = []
        for value in self.values("member"):
            notes, kept, blocks = member_parts(parted(value)[1])
            parts = [block.split(":") for word in blocks.split() for block in repeated(word)]
            output = self.records(kept.split(), 1, 2_000)
            found.append(
                Member(
                    notes, output,
                    [(int(status), int(length)) for status, length in parts]
                )
            )
        return found

    def sent(self) -> list[tuple[str, bytes]]:
        """The files of what was sent."""
        return [
            (value.split()[0], self.records(value.split()[1:], 0, 0))
            for value in self.values("sent")
        ]

    def places(self) -> Iterator[tuple[str, int, bytes, str]]:
        """The bytes that are said at places of files, by digits or as fields of a struct, each
        with what says them."""
        for value in self.values("file"):
            name, at, *digits = value.split()
            yield name, int(at), bytes_of(digits), value
        for value in self.values("fields"):
            name, at, struct, *pairs = value.split()
            for field, number in zip(pairs[::2], pairs[1::2]):
                place, data = field_bytes(struct, field, number)
                yield name, int(at) + place, data, f"{name} {at} {struct} {field} {number}"

    def parts(self) -> dict[str, int]:
        """The files of which only the first bytes are there."""
        return {name: int(length) for name, length in self.named("part").items()}

    def absent(self) -> Lines:
        return [name for value in self.values("absent") for name in value.split()]


# ---- reading a file


class Mistake(ValueError):
    """What is wrong with a file, after its name and the line."""

    def __init__(self, path: Path, number: int | None, what: str) -> None:
        super().__init__(f"{path}:{number}: {what}" if number else f"{path}: {what}")


class Line(str):
    """A line of a file, with its number there."""

    number: int

    def __new__(cls, number: int, text: str) -> Line:
        line = super().__new__(cls, text)
        line.number = number
        return line

    def word(self) -> str:
        return parted(self)[0]

    def parts(self) -> Lines:
        """What follows the word, between bars; one empty part where nothing does."""
        value = parted(self)[1]
        return [part.strip() for part in value.split(" | ") if part.strip() or not value]


def paragraphs(text: str) -> list[list[Line]]:
    """The lines of each scenario, the first of which is its name. A line that begins with `#` is
    a comment, wherever it stands."""
    parts: list[list[Line]] = [[]]
    for number, line in enumerate(text.split("\n"), 1):
        if not line.strip():
            parts.append([])
        elif not line.strip().startswith("#"):
            parts[-1].append(Line(number, line.rstrip()))
    return [part for part in parts if part]


def base_of(like: Line) -> str:
    """The name after the word of a line `like`."""
    return like.parts()[0]


def check_bytes(words: str) -> None:
    for byte in words.encode():
        if not 32 <= byte <= 126:
            raise Slip(f"the byte {byte} is no printable ASCII")


def check_name(name: Line) -> None:
    if name.startswith(" "):
        raise Slip("a scenario begins with its name, without a blank before it")
    check_bytes(name)


def check_line(line: Line) -> None:
    word = line.word()
    check_bytes(word)
    for value in line.parts():
        check_bytes(value)
        if word not in WORDS:
            raise Slip(f'"{word}" is no word of a scenario{meant(word, WORDS)}')
        check_value(word, value)


def check_keys(before: list[Line], line: Line) -> None:
    """No line before a line, nor the line itself, says what the line says a second time."""
    stands: dict[tuple[str, str], int] = {}
    for other in [*before, line]:
        for value in other.parts():
            key = other.word(), key_of(other.word(), value)
            if key in stands and other is line and key[1] is not None:
                what = " ".join(filter(None, key))
                raise Slip(f'"{what}" stands at line {stands[key]} already')
            stands.setdefault(key, other.number)


# ---- what the lines of a scenario say together


def check_order(word: str, due: int, value: str) -> None:
    index = parted(value)[0]
    if int(index) != due:
        raise Slip(f'"{word} {index}" stands where "{word} {due}" is due')


def check_setup(value: str) -> None:
    word = parted(value)[0]
    if not word.startswith("#") and word not in SETUP_WORDS:
        raise Slip(f'"{word}" is no word of a setup{meant(word, SETUP_WORDS)}')


def check_file(scenario: Scenario, word: str, name: str) -> None:
    pcaps, raws = list(scenario.named("pcap")), list(scenario.named("raw"))
    texts, calls = ["conf", "f.ddd", "sched", "t.txt"], ["fetch", "save", "write"]
    allowed = {
        "tail": set(pcaps) - set(raws),
        "cut": {*pcaps, *raws},
        "endless": {*pcaps, *raws},
        "pieces": {*pcaps, *raws, *texts},
        "fail": {*pcaps, *raws, *texts, *calls},
    }.get(word, {name})
    if name and name not in allowed:
        near = meant(name, [*pcaps, *raws, *texts, *calls])
        raise Slip(f'"{name}" is no file that may stand here{near}')


def check_fronts(scenario: Scenario, words: str) -> None:
    known = scenario.named("bytes")
    for word in words.split():
        name, colon, _ = word.partition(":")
        if colon and name and name not in known:
            raise Slip(f'no line "bytes" has the name "{name}"{meant(name, known)}')


def check_kept(scenario: Scenario, words: str) -> None:
    captures = [value.partition(" ")[2] for value in scenario.values("pcap")] or [""]
    for word in words.split():
        capture, dot, indices = word.partition("/")[0].partition(".")
        last = int((indices if dot else capture).rpartition("-")[2])
        frames = captures[int(capture):][:1] if dot else [scenario.value("frames") or captures[0]]
        count = sum(len(repeated(frame)) for frame in "".join(frames).split())
        if last >= count:
            raise Slip(f'"{word}" is kept of {count} frames, from 0 on')


def check_named(scenario: Scenario, word: str, value: str) -> None:
    """What a value names of the scenario is there."""
    rest = parted(value)[1]
    if word == "pcap":
        check_fronts(scenario, rest)
    elif word == "frames":
        check_fronts(scenario, value)
    elif word == "sent":
        check_kept(scenario, rest)
    elif word == "member":
        check_kept(scenario, member_parts(rest)[1])


class Document:
    """The scenarios of a file."""

    def __init__(self, path: Path, text: str) -> None:
        self.path, self.lines = path, dict[str, list[Line]]()
        self.names: list[Line] = []
        parts = paragraphs(text)
        for name, *_ in parts:
            self.add_name(name)
        for name, *lines in parts:
            self.lines[name] = lines
        for name, *lines in parts:
            for at, line in enumerate(lines):
                self.checked(line, check_line, line)
                self.checked(line, check_keys, lines[:at], line)
            self.layers(name)

    def checked(self, line: Line, check: Callable[..., None], *words: object) -> None:
        """Checks something, whose slip is a mistake in a line."""
        try:
            check(*words)
        except Slip as slip:
            raise Mistake(self.path, line.number, str(slip)) from None

    def add_name(self, name: Line) -> None:
        self.checked(name, check_name, name)
        for other in self.names:
            if other == name:
                what = f'the name "{name}" stands at line {other.number} already'
                raise Mistake(self.path, name.number, what)
        self.names.append(name)

    def layers(self, name: str) -> list[list[Line]]:
        """The lines of a scenario, and those of the ones that it is like: two steps at most."""
        layers, likes = [self.lines[name]], list[Line]()
        while like := next((line for line in layers[-1] if line.word() == "like"), None):
            base = base_of(like)
            if base not in self.lines:
                raise Mistake(
                    self.path, like.number,
                    f'there is no scenario "{base}"{meant(base, self.names)}'
                )
            likes.append(like)
            if len(likes) == 3:
                told = f'"{name}" is like "{base_of(likes[0])}" in three steps, and two are allowed'
                raise Mistake(self.path, likes[0].number, told)
            layers.append(self.lines[base])
        return layers

    def scenarios(self) -> list[Scenario]:
        """Those that are carried out, in order."""
        named = {
            name
            for name in self.names if not any(line.word() == "base" for line in self.lines[name])
        }
        found = [Scenario(name, self.layers(name)) for name in self.names if name in named]
        for scenario in found:
            self.check(scenario)
        return found

    def check(self, scenario: Scenario) -> None:
        """What the lines of a scenario say together is right."""
        for word in ("cpu", "member"):
            for due, (line, value) in enumerate(scenario.lines_of(word)):
                self.checked(line, check_order, word, due, value)
        if scenario.value("status").partition(" ")[0] not in ("1", "2"):
            for line, value in [*scenario.lines_of("conf"), *scenario.lines_of("with")]:
                self.checked(line, check_setup, value)
        for line in scenario.layers[0]:
            for value in line.parts():
                self.checked(line, check_file, scenario, line.word(), parted(value)[0])
        for word in ("pcap", "frames", "sent", "member"):
            for line, value in scenario.lines_of(word):
                self.checked(line, check_named, scenario, word, value)


def scenarios(path: Path) -> list[Scenario]:
    """The scenarios of a file that are carried out, in order."""
    try:
        text = path.read_bytes().decode()
    except (OSError, UnicodeDecodeError):
        raise Mistake(path, None, "it can't be read") from None
    return Document(path, text).scenarios()
