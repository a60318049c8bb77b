"""Runs ringtap, and says on standard error what its exit status means: which file, which line of
it, and what to change.

What is saved goes into a new folder, beside the setup that was used and the printed lines
(lines.txt). An output that would take the place of an input is refused before anything is run.
Printed lines and exit status are the program's; where this tool refuses, or can't run it, the
status is 125.
"""
from __future__ import annotations

import argparse
import os
import subprocess
import sys
import tempfile
from dataclasses import asdict, dataclass
from pathlib import Path

from .documents import plain, table_with
from .files import (
    LARGEST_TEXT,
    Fault,
    Setup,
    is_name,
    output_names,
    read_setup,
    refuse_name,
    words_of,
)
from .kinds import explain_end, why_of
from .notes import rollover_note
from .outputs import is_device, is_same, named_by, write_bytes, write_text
from .refusals import Place, all_filtered, explain, meant, read_lines, refusal_of
from .runs import Report, add_program, environment_of, program_of, report_of, status_words
from .words import ToolParser, add_json, print_json

LINES, SETUP = "lines.txt", "setup.txt"
REFUSED = 125  # as `env` and `timeout` end where they themselves fail
WRITE_FAULT, OUT_OF_MEMORY = 6, 7
# of each command
TEXTS = {"check": 1, "replay": 2, "capture": 1, "send": 1, "make": 1, "forward": 1, "replay2": 2}


@dataclass
class Asked:
    """What is run: the command, its setup as it was named, where it is to be read and as it was
    read, its other words, and where outputs go."""

    command: str
    path: Path
    source: Path  # a copy where the setup came through a pipe
    texts: list[str]
    setup: Setup | None  # None where it can't be read, which the program says itself
    folder: Path | None

    @property
    def schedule(self) -> Path | None:
        return (
            Path(self.texts[0]) if len(self.texts) == 1 and TEXTS.get(self.command) == 2 else None
        )


@dataclass
class Done:
    """What came out: the status, as the program gave it or a signal, and the bytes that it
    printed."""

    status: int
    printed: bytes
    said: bytes

    @property
    def lines(self) -> str:
        return self.printed.decode("utf-8", "surrogateescape")


# ---- before the run


def new_folder(asked: Path | None) -> Path:
    """A name that isn't there yet: the one that was asked for, or run-1, run-2 and so on."""
    if asked is None:
        number = 1
        while Path(f"run-{number}").exists():
            number += 1
        return Path(f"run-{number}")
    if asked.exists():
        raise Fault(f"{asked}: is there already; outputs go into a new folder")
    return asked


def text_into(setup: Setup, folder: Path) -> str | None:
    """The setup with outputs in a folder, each line with its number. None where the line `out` is
    one that the program refuses."""
    places = [at for at, line in enumerate(setup.lines) if words_of(line)[:1] == ["out"]]
    values = words_of(setup.lines[places[0]])[1:] if places else ["out"]
    if len(places) > 1 or len(values) != 1 or not is_name(values[0]):
        return None
    prefix = str(folder / Path(values[0]).name)
    refuse_name(prefix)
    lines = list(setup.lines)
    if places:
        lines[places[0]] = f"out {prefix}"
    else:
        lines.append(f"out {prefix}")
    text = "\n".join(lines) + "\n"
    if len(text) > LARGEST_TEXT:
        raise Fault(
            f"{setup.path}: has no room for another line `out`, as a text has at most"
            f" {LARGEST_TEXT:,} bytes"
        )
    return text


def refuse_clashes(setup: Setup, command: str, texts: list[Path]) -> None:
    """Ends the tool where an output would take the place of an input. A setup that the program
    refuses has no outputs."""
    try:
        outputs = [Path(name) for name in output_names(setup, command)]
        inputs = [*texts, *named_by(setup)]
    except Fault:
        return
    for given in inputs:
        for made in outputs:
            if is_same(made, given) and not is_device(made):
                raise Fault(
                    f"{setup.path}: the output {made} would take the place of the input {given}:"
                    " choose another `out`"
                )


def source_of(path: Path, room: Path) -> Path:
    """Where the setup can be read as often as it has to be: what comes through a pipe is copied."""
    if path.is_file() or path.is_dir() or not path.exists():
        return path
    try:
        with open(path, "rb") as file:
            data = file.read(LARGEST_TEXT + 1)
    except OSError:
        return path
    (room / SETUP).write_bytes(data)
    return room / SETUP


def setup_if_read(source: Path, path: Path) -> Setup | None:
    """The setup, unless it can't be read or isn't one: then the program says so."""
    try:
        setup = read_setup(source)
    except Fault:
        return None
    setup.path = path
    return setup


def prepared(folder: Path, text: str) -> Path:
    try:
        folder.mkdir(parents=True)
    except OSError as error:
        raise Fault(f"{folder}: can't be made: {error.strerror}") from None
    write_text(folder / SETUP, text)
    return folder / SETUP


def clear(folder: Path) -> None:
    """Takes the folder away again where nothing was saved in it."""
    if [path.name for path in folder.iterdir()] == [SETUP]:
        (folder / SETUP).unlink()
        folder.rmdir()


# ---- the run


def run(program: Path, words: list[str]) -> Done:
    told = environment_of(words[0], Path(words[1]))
    try:
        # a name may be /dev/fd/63, as of <(..)
        done = subprocess.run([program, *words], capture_output=True, env=told, close_fds=False)
    except OSError as error:
        raise Fault(f"{program}: can't be started: {error.strerror}") from None
    return Done(done.returncode, done.stdout, done.stderr)


def run_into(program: Path, asked: Asked, folder: Path, text: str) -> Done:
    """A run whose outputs go into a new folder."""
    name = prepared(folder, text)
    try:
        refuse_clashes(read_setup(name), asked.command, [asked.path, *map(Path, asked.texts)])
        done = run(program, [asked.command, str(name), *asked.texts])
        if any(path.name != SETUP for path in folder.iterdir()):
            write_bytes(folder / LINES, done.printed)
        return done
    finally:
        clear(folder)


# ---- after the run


def explanations(asked: Asked, done: Done) -> list[str]:
    """What is to be said beside the program's own lines."""
    makers = {
        0: explain_fine,
        1: explain_usage,
        2: explain_refusal,
        3: explain_refusal,
        4: explain_captures,
        5: explain_read_fault,
        6: explain_write_fault,
        7: explain_memory,
    }
    return makers[done.status](asked, done) if done.status in makers else []


def report_if_any(done: Done) -> Report | None:
    try:
        return report_of(done.lines)
    except Fault:
        return None


def explain_fine(asked: Asked, done: Done) -> list[str]:
    """A run that is fine and may still not be what was meant."""
    report = report_if_any(done)
    name = asked.setup.word("filter") if asked.setup else None
    if report and name and report.arrivals and report.filtered == report.arrivals:
        return [all_filtered(asked.setup, Path(name))]
    if report and any(cpu.frames for cpu in report.cpus) and not report.arrivals:
        frames = sum(cpu.frames for cpu in report.cpus)
        return [
            f"{asked.path}: of {frames} frames none arrived: each has fewer than 14 bytes, or is a"
            " fragment whose others aren't there"
        ]
    return []


def explain_usage(asked: Asked, done: Done) -> list[str]:
    given = " ".join([asked.command, str(asked.path), *asked.texts])
    if asked.command not in TEXTS:
        near = meant(asked.command, list(TEXTS))
        return [
            f'"{asked.command}": no such command; '
            + (f'"{near}" is meant?' if near else f"there are {', '.join(TEXTS)}")
        ]
    if TEXTS[asked.command] == 2 and not asked.texts:
        return [
            f'"{given}": {asked.command} needs CONF and SCHED; /dev/null is a schedule without a'
            " line"
        ]
    wanted = "CONF and SCHED" if TEXTS[asked.command] == 2 else "CONF alone"
    return [f'"{given}": {asked.command} takes {wanted}, and no name is empty']


def explain_refusal(asked: Asked, done: Done) -> list[str]:
    refusal = refusal_of(done.lines)
    if not refusal:
        return []
    path = asked.path
    if refusal.text == "schedule":
        path = asked.schedule or path
    elif refusal.text != "setup" and asked.setup:
        path = Path(asked.setup.word(refusal.text, str(path)))
    lines = read_lines(asked.source if path == asked.path else path)
    return [explain(refusal, Place(path, lines, asked.command, asked.setup))]


def explain_captures(asked: Asked, done: Done) -> list[str]:
    """Why a capture ended early, of each CPU whose capture did."""
    ends = [
        line.split(" end ", 1)[1]
        for line in done.lines.splitlines()
        if line.startswith("cpu ") and " end " in line
    ]
    told = []
    for cpu, end in zip(asked.setup.cpus if asked.setup else [], ends):
        sentence = explain_end(Path(cpu.name), end)
        if sentence:
            told.append(f"{asked.path}, line {cpu.line}: {sentence}")
    return told


def explain_read_fault(asked: Asked, done: Done) -> list[str]:
    """The first text that can't be read, in the order in which they are, or the captures that
    can't."""
    if done.lines.startswith("cpu "):
        return explain_captures(asked, done)
    if why := why_of(asked.path):
        return [f"{asked.path}: {why}"]
    for word in ("filter", "ticks"):
        name = asked.setup.word(word) if asked.setup else None
        if (
            name
            and (word == "filter" or asked.command in ("check", "capture", "forward"))
            and (why := why_of(Path(name)))
        ):
            return [f"{asked.path}, line {asked.setup.places[word]}: {name}: {why}"]
    why = why_of(asked.schedule) if asked.schedule else None
    return [f"{asked.schedule}: {why}"] if why else []


def why_unwritten(path: Path) -> str | None:
    """Why an output can't be saved, as far as that is still to be seen."""
    try:
        os.close(os.open(path, os.O_WRONLY | os.O_NONBLOCK))
        place = os.statvfs(path)
        return (
            None
            if (place.f_bavail if os.geteuid() else place.f_bfree)
            else "No space left on device"
        )
    except FileNotFoundError:
        if not path.parent.is_dir():
            return f"there is no folder {path.parent}"
        return None if os.access(path.parent, os.W_OK) else f"nothing can be made in {path.parent}"
    except OSError as error:
        return error.strerror


def explain_write_fault(asked: Asked, done: Done) -> list[str]:
    if not asked.setup:
        return []
    try:
        outputs = [Path(name) for name in output_names(asked.setup, asked.command)]
    except Fault:
        return []
    if asked.folder:
        outputs = [asked.folder / path.name for path in outputs]
    return [f"{path}: {why}" for path in outputs if (why := why_unwritten(path))]


def explain_memory(asked: Asked, done: Done) -> list[str]:
    for row in table_with({"Status", "When", "What to do"}):
        if row["Status"] == "7":
            return [f"{asked.path}: {plain(row['When'])}: {plain(row['What to do'])}"]
    return []


# ---- what is printed


def hand_on(printed: bytes) -> bool:
    """Prints the program's lines; False where nobody takes them."""
    try:
        sys.stdout.buffer.write(printed)
        sys.stdout.buffer.flush()
        return True
    except OSError:
        os.dup2(os.open(os.devnull, os.O_WRONLY), sys.stdout.fileno())
        return False


def object_of(asked: Asked, done: Done) -> dict[str, object]:
    """The run as one object; what explains it goes to standard error."""
    report, refusal = report_if_any(done), refusal_of(done.lines)
    return {
        "status": done.status,
        "refusal": asdict(refusal) if refusal else None,
        "folder": str(asked.folder) if asked.folder and asked.folder.exists() else None,
        "lines": done.lines.splitlines(),
        "report": asdict(report) if report else None,
    }


def say(asked: Asked, done: Done, told: list[str]) -> None:
    sys.stderr.buffer.write(done.said)
    if done.status in (0, 4) and asked.setup:
        told = [*told, *rollover_note(asked.setup)]
    where = f"; outputs are in {asked.folder}" if asked.folder and asked.folder.exists() else ""
    for line in [*told, f"ringtap: status {done.status}: {status_words(done.status)}{where}"]:
        print(line, file=sys.stderr)


def parser_of() -> ToolParser:
    parser = ToolParser(__doc__, "replay demo/small.txt demo/schedule.txt", REFUSED)
    parser.add_argument("command", metavar="COMMAND", help="a command of ringtap's, as replay")
    parser.add_argument("setup", type=Path, metavar="CONF", help="the setup")
    parser.add_argument("texts", nargs="*", metavar="SCHED", help="the schedule of a replay")
    where = parser.add_mutually_exclusive_group()
    where.add_argument(
        "--into",
        type=Path,
        metavar="FOLDER",
        help="the new folder (run-1, or the next number that is free)",
    )
    where.add_argument(
        "--here",
        action="store_true",
        help="outputs go where the setup's `out` has them, and replace what is there",
    )
    add_json(parser)
    add_program(parser)
    return parser


def carried_out(program: Path, asked: Asked, args: argparse.Namespace) -> Done:
    """Makes the run that is asked for."""
    is_saved = asked.setup and asked.command in TEXTS and asked.command != "check" and not args.here
    folder = new_folder(args.into) if is_saved else None
    text = text_into(asked.setup, folder) if folder else None
    if text:
        asked.folder = folder
        return run_into(program, asked, folder, text)
    if asked.setup:
        refuse_clashes(asked.setup, asked.command, [asked.path, *map(Path, asked.texts)])
    return run(program, [asked.command, str(asked.source), *asked.texts])


def main(words: list[str]) -> int:
    args = parser_of().parse_args(words)
    program = program_of(args.program)
    with tempfile.TemporaryDirectory(prefix="ringtap-") as room:
        source = source_of(args.setup, Path(room))
        asked = Asked(
            args.command, args.setup, source, args.texts, setup_if_read(source, args.setup), None
        )
        done = carried_out(program, asked, args)
        told = explanations(asked, done)
    if args.json:
        print_json(object_of(asked, done))
    elif not hand_on(done.printed):
        done.status = done.status if done.status == OUT_OF_MEMORY else WRITE_FAULT
        told = ["standard output: nobody takes the lines"]
    say(asked, done, told)
    return done.status if done.status >= 0 else 128 - done.status
