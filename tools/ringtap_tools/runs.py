"""How the tools run the program: where it is, what its statuses mean, its printed lines, and a
folder for each tool's own runs."""
from __future__ import annotations

import argparse
import itertools
import os
import re
import subprocess
import sys
import tempfile
from dataclasses import dataclass, field
from pathlib import Path

from .captures import CaptureStream, copy_unpacked, is_plain
from .files import AT_SIGNAL, LARGEST_TEXT, MOST_MEMBERS, Fault, Setup, read_setup
from .memory import KEPT_HEAP, LARGE_PAGES, TOLD
from .outputs import write_text

HERE = Path(__file__).resolve().parent.parent  # where the commands are
LINK = HERE.parent / "bin" / "ringtap"  # demo/build.sh makes it
# where install.sh puts it, the tools being in lib/ringtap
INSTALLED = HERE.parent.parent / "bin" / "ringtap"

# Where a run takes less time if the C library is told how to get memory: captures of so many bytes
# together; for large pages, with which all of a ring is touched at once, rings of at most so many
# times these bytes; for the heaps of threads, frames of so many bytes.
LEAST_CAPTURES, MOST_RING, LARGE_FRAME = 1_048_576, 2, 512
FIRST_FRAMES = 100  # so many of each capture are looked at
LONG = 5  # seconds from which on it is said beforehand how long something takes

STATUSES = {
    0: "done",
    1: "the arguments aren't a command",
    2: "the setup is refused",
    3: "a filter, moments or a schedule is refused",
    4: "a capture is damaged or cut; what precedes that was run and saved",
    5: "a file couldn't be read; what was read before that was run and saved",
    6: "a file couldn't be saved, or the lines couldn't be printed",
    7: "out of memory",
}


def add_program(parser: argparse.ArgumentParser) -> None:
    told = f"of large captures with large pages, unless {TOLD} is set"
    parser.add_argument(
        "--program",
        metavar="PATH",
        help=f"the ringtap to run (bin/ringtap, which demo/build.sh makes), {told}",
    )


def program_of(path: str | None) -> Path:
    """The program that was asked for, or the one that demo/build.sh made or install.sh put beside
    the tools."""
    program = Path(path).resolve() if path else INSTALLED if HERE.name == "ringtap" else LINK
    if not os.access(program, os.X_OK) or program.is_dir():
        hint = "" if path else ": `sh demo/build.sh` makes it, and --program names another"
        raise Fault(f"{program}: isn't a program{hint}")
    return program


def status_words(status: int) -> str:
    """What an exit status means. The program was stopped by a signal where it is negative."""
    return (
        f"stopped by signal {-status}"
        if status < 0
        else STATUSES.get(status, "no status of ringtap's")
    )


def environment_of(command: str, setup: Path, folder: Path = Path()) -> dict[str, str]:
    """The environment of a run in a folder, in which the C library is told what makes such a run
    take less time. It is told nothing where the user has told it something, or where the setup
    isn't one, which the program says itself."""
    try:
        told = [] if TOLD in os.environ else words_for(command, read_setup(setup), folder)
    except (Fault, OSError):
        told = []
    return {**os.environ, TOLD: ":".join(told)} if told else dict(os.environ)


def words_for(command: str, setup: Setup, folder: Path) -> list[str]:
    """What the C library is told for a run. A capture that comes through a pipe doesn't count."""
    captures = [path for cpu in setup.cpus if (path := folder / cpu.name).is_file()]
    size = sum(path.stat().st_size for path in captures)
    if size < LEAST_CAPTURES:
        return []
    if command in ("replay", "replay2"):
        return [LARGE_PAGES, KEPT_HEAP] if ring_bytes(setup) <= MOST_RING * size else []
    if command in ("capture", "forward"):
        return [KEPT_HEAP] if mean_length(captures) >= LARGE_FRAME else []
    return []


def ring_bytes(setup: Setup) -> int:
    """The bytes of the blocks of all members."""
    return (
        setup.number("block_size")
        * setup.number("block_nr")
        * min(setup.number("members", 1), MOST_MEMBERS)
    )


def mean_length(captures: list[Path]) -> float:
    """The mean length of the first frames of captures, as they were captured."""
    frames = itertools.chain.from_iterable(
        itertools.islice(CaptureStream(path, None), FIRST_FRAMES) for path in captures
    )
    lengths = [len(frame.data) for frame in frames]
    return sum(lengths) / max(len(lengths), 1)


@dataclass(frozen=True)
class CpuReport:
    frames: int
    arrivals: int
    end: str


@dataclass(frozen=True)
class MemberReport:
    packets: int  # kept or dropped
    drops: int
    freezes: int
    blocks: int
    counts: tuple[tuple[int, int, int], ...]  # packets, drops and freezes of each `count` line

    @property
    def kept(self) -> int:
        return self.packets - self.drops


@dataclass
class Report:
    """What the lines of a run say."""

    cpus: list[CpuReport] = field(default_factory=list)
    members: list[MemberReport] = field(default_factory=list)
    arrivals: int = 0
    filtered: int = 0
    kept: int = 0
    drops: int = 0

    @property
    def freezes(self) -> int:
        return sum(member.freezes for member in self.members)

    @property
    def blocks(self) -> int:
        return sum(member.blocks for member in self.members)


CPU_LINE = re.compile(r"cpu \d+ frames (\d+) arrivals (\d+) end (.+)")
MEMBER_LINE = re.compile(r"member \d+ packets (\d+) drops (\d+) freezes (\d+) blocks (\d+)")
COUNT_LINE = re.compile(r"count (\d+) packets (\d+) drops (\d+) freezes (\d+)")
TOTAL_LINE = re.compile(r"total arrivals (\d+) filtered (\d+) kept (\d+) drops (\d+)")


def report_of(printed: str) -> Report:
    """Reads the lines of a `replay`, a `make` or a `capture`."""
    report, counts, has_total = Report(), {}, False
    for line in printed.splitlines():
        if found := CPU_LINE.fullmatch(line):
            report.cpus.append(CpuReport(int(found[1]), int(found[2]), found[3]))
        elif found := MEMBER_LINE.fullmatch(line):
            report.members.append(MemberReport(*map(int, found.groups()), ()))
        elif found := COUNT_LINE.fullmatch(line):
            member, *numbers = map(int, found.groups())
            counts.setdefault(member, []).append(tuple(numbers))
        elif found := TOTAL_LINE.fullmatch(line):
            report.arrivals, report.filtered, report.kept, report.drops = map(int, found.groups())
            has_total = True
    if not has_total:
        raise Fault(f"the program printed no total, but `{printed.strip()}`")
    for member, numbers in counts.items():
        old = report.members[member]
        report.members[member] = MemberReport(
            old.packets, old.drops, old.freezes, old.blocks, tuple(numbers)
        )
    return report


class Room:
    """A folder of a tool's own, in which the captures and the filter of a setup have short names.
    So any run can be made of it whatever the names are, and no output lands beside the user's
    files."""

    def __init__(self, setup: Setup, program: Path, has_captures: bool = True) -> None:
        self.setup, self.program = setup, program
        self.holder = tempfile.TemporaryDirectory(prefix="ringtap-")
        self.folder = Path(self.holder.name)
        # where each text is from, by the word with which the program refuses it
        self.texts = {"setup": setup.path}
        self.captures = []
        for cpu, path in enumerate(setup.capture_paths() if has_captures else []):
            where = f"{setup.path}, line {setup.cpus[cpu].line}"
            self.captures.append(self.capture(where, path, f"cpu{cpu}.pcap"))
        if name := setup.word("filter"):
            self.texts["filter"] = Path(name)
            self.link(f"{setup.path}, line {setup.places['filter']}", Path(name), "filter.ddd")

    def __enter__(self) -> Room:
        return self

    def __exit__(self, *_: object) -> None:
        self.holder.cleanup()

    def capture(self, where: str, path: Path, name: str) -> str:
        """Gives a capture a short name here; what the program can't read, or not twice, is unpacked
        or copied."""
        if not path.exists() or is_plain(path):
            return self.link(where, path, name)
        try:
            with open(self.folder / name, "wb") as file:
                copy_unpacked(path, file)
        except OSError as error:
            raise Fault(f"{path}: can't be unpacked into {self.folder}: {error.strerror}") from None
        return name

    def streams(self) -> list[CaptureStream]:
        """The captures, each to be read once, under the names that the setup has. A pipe can't be
        read anew, but its copy here can."""
        return [
            CaptureStream(self.folder / name, name=path)
            for name, path in zip(self.captures, self.setup.capture_paths())
        ]

    def link(self, where: str, path: Path, name: str) -> str:
        """Gives a file a short name here."""
        if not path.is_file() or not os.access(path, os.R_OK):
            folder = "" if path.is_absolute() else f": names count from the folder {os.getcwd()}"
            raise Fault(f"{where}: {path} isn't a file that can be read{folder}")
        (self.folder / name).symlink_to(path.resolve())
        return name

    def text(self, word: str, path: Path) -> str:
        """Gives a text a short name here, whatever it comes from: a file, a device, a pipe, or with
        `-` standard input."""
        source = Path("/dev/stdin") if str(path) == "-" else path
        self.texts[word] = path
        try:
            with open(source, "rb") as given:
                (self.folder / word).write_bytes(given.read(LARGEST_TEXT + 1))
        except OSError as error:
            raise Fault(f"{path}: can't be read: {error.strerror}") from None
        return word

    def write_setup(
        self, name: str, changes: dict[str, str | None], captures: list[str] | None = None
    ) -> None:
        """Writes the setup with other values, and with the names that files have here."""
        names = {"filter": "filter.ddd"} if "filter" in self.setup.values else {}
        text = self.setup.with_changes(
            {"ticks": None, **names, **changes}, captures or self.captures
        )
        write_text(self.folder / name, text)

    def refuse(self, changes: dict[str, str | None]) -> None:
        """Ends the tool where the program refuses the setup with these values."""
        self.write_setup("checked", changes)
        done = run_program(self.program, ["check", "checked"], self.folder, dict(os.environ))
        if done.returncode:
            raise Fault(self.refused(done, "replay", "checked", "checked"))

    def replay(self, setup: str, schedule: str, command: str = "replay") -> Report:
        """Makes a run, and returns what it printed. A capture with damage is no fault: it is run up
        to there."""
        told = environment_of(command, self.folder / setup, self.folder)
        done = run_program(self.program, [command, setup, schedule], self.folder, told)
        if done.returncode not in (0, 4):
            raise Fault(self.refused(done, command, setup, schedule))
        return report_of(done.stdout)

    def refused(
        self, done: subprocess.CompletedProcess, command: str, setup: str, schedule: str
    ) -> str:
        """Why a run was none: the file, the line and what to change, as run.py says it."""
        from .refusals import Place, explain, read_lines, refusal_of  # which run.py has too

        said = done.stdout.strip() or "it printed nothing"
        where = self.texts.get(said.split()[0], self.setup.path)
        refusal = refusal_of(said)
        if not refusal:
            return f"{where}: {status_words(done.returncode)} (status {done.returncode}): {said}"
        names = {"setup": setup, "schedule": schedule, "filter": "filter.ddd"}
        lines = read_lines(self.folder / names.get(refusal.text, setup))
        return f"{explain(refusal, Place(where, lines, command, self.setup))} ({said})"


def run_program(
    program: Path, words: list[str], folder: Path, environment: dict[str, str]
) -> subprocess.CompletedProcess:
    """Runs the program to its end, and keeps what it printed."""
    pipe = subprocess.PIPE
    how = {"cwd": folder, "env": environment, "stdout": pipe, "stderr": pipe}
    try:
        run = subprocess.Popen(
            [program, *words], **how, text=True, encoding="utf-8", errors="replace"
        )
    except OSError as error:
        raise Fault(f"{program}: can't be started: {error.strerror}") from None
    RUNNING.add(run)
    try:
        printed, said = run.communicate()
    except BaseException:
        run.kill()
        raise
    finally:
        RUNNING.discard(run)
    return subprocess.CompletedProcess(run.args, run.returncode, printed, said)


def kill_runs() -> None:
    """Ends what runs on threads, so that a tool that is told to end needn't wait for it."""
    for run in list(RUNNING):
        run.kill()


RUNNING: set[subprocess.Popen] = set()
AT_SIGNAL.append(kill_runs)


def say_how_long(what: str, seconds: float) -> None:
    """Says on standard error how long something takes, where that is long."""
    if seconds > LONG:
        print(f"{what}: about {seconds:,.0f} s", file=sys.stderr)


class Progress:
    """A bar on standard error, where that is a terminal."""

    WIDTH = 30

    def __init__(self, whole: int, what: str, is_shown: bool = True) -> None:
        self.whole, self.what, self.done = whole, what, 0
        self.shown = is_shown and sys.stderr.isatty()

    def step(self) -> None:
        self.done += 1
        is_due = self.done == self.whole or self.done % max(1, self.whole // 200) == 0
        if self.shown and is_due:
            full = self.WIDTH * self.done // max(self.whole, 1)
            bar = "#" * full + "." * (self.WIDTH - full)
            end = "\n" if self.done == self.whole else ""
            print(
                f"\r[{bar}] {self.done} of {self.whole} {self.what}",
                end=end,
                file=sys.stderr,
                flush=True,
            )


def table(heads: list[str], rows: list[list[object]]) -> str:
    """Columns in which numbers stand to the right and words to the left."""
    cells = [[str(cell) for cell in row] for row in rows]
    widths = [max(len(row[at]) for row in [heads, *cells]) for at in range(len(heads))]
    right = [
        bool(rows) and all(isinstance(row[at], int) for row in rows) for at in range(len(heads))
    ]
    lines = []
    for row in [heads, *cells]:
        padded = [
            cell.rjust(width) if is_right else cell.ljust(width)
            for cell, width, is_right in zip(row, widths, right)
        ]
        lines.append("  ".join(padded).rstrip())
    return "\n".join(lines)
