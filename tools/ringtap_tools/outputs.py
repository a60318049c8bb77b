"""Writes what the tools make. Nothing takes the place of an input, and an output takes its name
when it is whole.

`check_outputs` is called before anything is run; `written` opens a file beside the place where it
is to be, and renames it there.
"""
from __future__ import annotations

import os
import secrets
import stat
from contextlib import contextmanager
from pathlib import Path
from typing import BinaryIO, Iterable, Iterator

from .files import Fault, Setup


def named_by(setup: Setup) -> list[Path]:
    """The setup itself and every file that it names to be read."""
    named = [setup.word(word) for word in ("filter", "ticks")]
    return [setup.path, *map(Path, filter(None, named)), *(Path(cpu.name) for cpu in setup.cpus)]


def is_same(one: Path, other: Path) -> bool:
    """Whether two names are one file, by name or by a link."""
    return (
        os.path.realpath(one) == os.path.realpath(other)
        or one.exists()
        and other.exists()
        and one.samefile(other)
    )


def is_device(path: Path) -> bool:
    """Whether a name is a device or a pipe, as /dev/null is, which keeps nothing that could be
    overwritten."""
    return path.exists() and not path.is_file() and not path.is_dir()


def check_outputs(
    outputs: Iterable[Path | None], inputs: Iterable[Path], setup: Setup | None = None
) -> None:
    """Ends the tool, before any work, where an output couldn't be written or would take the place
    of an input, of a file that the setup names, or of another output. An output that wasn't asked
    for is None."""
    made = [path for path in outputs if path is not None]
    given = [*inputs, *(named_by(setup) if setup else [])]
    for at, path in enumerate(made):
        check_place(path)
        for other in given:
            if is_same(path, other) and not is_device(path):
                raise Fault(
                    f"{path}: would take the place of the input {other}: choose another name"
                )
        for other in made[:at]:
            if is_same(path, other) and not is_device(path):
                raise Fault(f"{path}: is the name of two outputs")


def check_place(path: Path) -> None:
    """Whether a file can be written there, as far as that can be seen before."""
    if path.is_dir():
        raise Fault(f"{path}: is a folder, and an output is a file")
    folder = Path(os.path.realpath(path)).parent
    if not folder.is_dir():
        raise Fault(f"{path}: can't be written: there is no folder {path.parent}")
    if not is_device(path) and not os.access(folder, os.W_OK | os.X_OK):
        raise Fault(f"{path}: can't be written: nothing can be made in the folder {path.parent}")


def check_folder(folder: Path) -> None:
    """Whether a folder is there, or can be made."""
    there = folder
    while not there.exists() and there != there.parent:
        there = there.parent
    if not there.is_dir():
        raise Fault(f"{folder}: can't be made: {there} isn't a folder")
    if not os.access(there, os.W_OK | os.X_OK):
        raise Fault(f"{folder}: nothing can be made in {there}")


@contextmanager
def written(path: Path) -> Iterator[BinaryIO]:
    """Opens an output. It takes its name once it is whole; where something goes wrong what had the
    name stays."""
    try:
        if is_device(path):
            with open(path, "wb") as file:
                yield file
            return
        target = Path(os.path.realpath(path))  # of a link, the file that it leads to
        beside = target.with_name(f".ringtap-{secrets.token_hex(6)}")
        try:
            with open(beside, "xb") as file:
                if target.exists():
                    os.fchmod(file.fileno(), stat.S_IMODE(target.stat().st_mode))
                yield file
            beside.replace(target)
        finally:
            beside.unlink(missing_ok=True)
    except OSError as error:
        raise Fault(f"{path}: can't be written: {error.strerror}") from None


def write_bytes(path: Path, data: bytes) -> None:
    with written(path) as file:
        file.write(data)


def write_text(path: Path, text: str) -> None:
    write_bytes(path, text.encode("utf-8", "surrogateescape"))  # names are bytes
