"""Each Python file compiles, has at most 100 columns and is taken by flake8."""
from __future__ import annotations

import py_compile
import subprocess
from pathlib import Path

import pytest

from places import TOP

FOLDERS = ("bench", "checks", "demo", "examples", "tools")
FILES = sorted(path for folder in FOLDERS for path in (TOP / folder).rglob("*.py"))


@pytest.mark.parametrize("path", FILES, ids=[str(path.relative_to(TOP)) for path in FILES])
def test_it_compiles(path: Path, room: Path) -> None:
    py_compile.compile(str(path), cfile=str(room / "compiled"), doraise=True)


@pytest.mark.needs("flake8")
def test_flake8() -> None:
    """By the configuration of setup.cfg."""
    done = subprocess.run(
        ["flake8", *FOLDERS], cwd=TOP, capture_output=True, text=True, check=False
    )
    assert done.stdout.splitlines() == []
