"""A wrong program is noticed: of each idea some test fails, by its name."""
from __future__ import annotations

import os
import re
import shutil
import subprocess
import sys
from pathlib import Path

import pytest

from outside.wrong_program import IDEAS, SIZE_IDEAS
from places import TOP

SMALL = "outside/test_demo.py::test_demo[wrong-small]"
GROUP = "outside/test_demo.py::test_demo[wrong-group]"
# The test that notices an idea, where it isn't that of the small demo.
BY = {
    "a lost last piece of a dump": GROUP, "a block of another status": GROUP,
    "a hidden fault": "outside/test_files.py::test_captures_that_cant_be_read[wrong-none]",
    "a fault of a save as success": "outside/test_files.py::test_a_folder_as_the_output[wrong]",
    "the line after the wrong one": (
        "outside/test_files.py::test_a_name_of_256_bytes_in_the_setup[wrong]"
    ),
}
# The same of ringsize.
SIZES = "second/test_sizes.py::test_answers[3-blocks]"
SIZE_BY = {"damage as success": "outside/test_ringsize.py::test_a_capture_that_is_cut"}


def wrong_program(idea: str, program: Path, room: Path) -> Path:
    """The program with an idea."""
    wrong = room / "wrong"
    mine, script = shutil.copy(program, room / "program"), shutil.copy(
        TOP / "checks/outside/wrong_program.py", room
    )
    os.chmod(mine, 0o755)
    wrong.write_text(f'#!/bin/sh\nexec {sys.executable} -B {script} "{idea}" {mine} "$@"\n')
    wrong.chmod(0o755)
    return wrong


def fails(test: str, **environment: str) -> None:
    """A test fails, by its name."""
    words = [sys.executable, "-B", "-m", "pytest", "-q", "-p", "no:cacheprovider", f"checks/{test}"]
    done = subprocess.run(
        words, cwd=TOP, env={**os.environ, **environment}, capture_output=True, text=True,
        check=False
    )
    assert done.returncode == 1, done.stdout
    assert re.search(rf"^FAILED checks/{re.escape(test)}", done.stdout, re.M), done.stdout


@pytest.mark.parametrize("idea", IDEAS)
def test_a_wrong_program_fails_a_test(idea: str, first_program: Path, room: Path) -> None:
    fails(BY.get(idea, SMALL), RINGTAP=str(wrong_program(idea, first_program, room)))


@pytest.mark.parametrize("idea", SIZE_IDEAS)
def test_a_wrong_ringsize_fails_a_test(idea: str, sizer: Path, room: Path) -> None:
    test = SIZE_BY.get(idea, SIZES)
    fails(test, RINGSIZE=str(wrong_program(idea, sizer, room)))
