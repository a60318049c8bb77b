"""Runs of a program of which one request is refused, by refuse.c."""
from __future__ import annotations

import os
import subprocess
from collections.abc import Iterable, Iterator
from dataclasses import dataclass
from pathlib import Path

import running

# What an output holds before a run.
OLD = b"old"


@dataclass
class Ended:
    """A run's status, its lines and its files."""

    status: int
    lines: str
    files: dict[str, bytes]


@dataclass
class Refusing:
    """A folder in which runs are refused something."""

    path: Path
    program: Path

    def __post_init__(self) -> None:
        source = Path(__file__).parent / "refuse.c"
        words = ["cc", "-shared", "-fPIC", "-o", self.path / "refuse.so", source, "-ldl"]
        subprocess.run(words, check=True)

    def run(self, words: str, outputs: Iterable[str] = (), **refused: int) -> Ended:
        for old in [*self.path.glob("out.*"), self.path / "told", self.path / "left"]:
            old.unlink(missing_ok=True)
        for name in outputs:
            (self.path / name).write_bytes(OLD)
        preload = {
            "LD_PRELOAD": f"{self.path}/refuse.so", "TOLD": f"{self.path}/told",
            "LEFT": f"{self.path}/left"
        }
        environment = {
            **os.environ, **(preload if refused else {}),
            **{name: str(number) for name, number in refused.items()}
        }
        done, why = running.run([self.program, *words.split()], cwd=self.path, env=environment)
        assert done is not None, f"{refused}: {why}"
        assert not (self.path / "left").exists(), f"{refused}: a thread is left"
        return Ended(
            done.returncode, done.stdout.decode(),
            {path.name: path.read_bytes() for path in self.path.glob("out.*")}
        )

    def each(self, words: str, what: str, outputs: Iterable[str]) -> Iterator[tuple[int, Ended]]:
        """The run with each request of a kind refused, by its number, until none is. These outputs
        are there before each."""
        number = 1
        while True:
            ended = self.run(words, outputs, **{what: number})
            if not (self.path / "told").exists():
                return
            yield number, ended
            number += 1
