"""Rings of ringtap beside those of the kernel of this machine, and beside what a kernel gave
that was recorded: each byte of each block and slot, and each count. The kernel is asked in
network namespaces that are gone with the processes that made them."""
from __future__ import annotations

import functools
import tempfile
from pathlib import Path

import pytest

from kernel import fragments, rings
from kernel.compare import FREE, Tally
from kernel.rows import compare_rows

pytestmark = pytest.mark.xdist_group("kernel")  # the recording is judged once

RECORDED = {fields["case"]: fields for fields in rings.read_recording(rings.HERE / rings.RECORDING)}


def test_each_row_of_kernel_md_has_a_case() -> None:
    assert compare_rows(rings.CASES, [free.row for free in FREE]) == []


def test_each_case_is_recorded() -> None:
    assert sorted(RECORDED) == sorted(rings.BY_NAME)


@functools.cache
def judged(program: Path, name: str) -> tuple[str | None, Tally]:
    """What is wrong in a recorded case, if something is, and how much was compared."""
    with tempfile.TemporaryDirectory() as room:
        return rings.judge(RECORDED[name], str(program), Path(room))[1:]


@pytest.mark.parametrize("name", rings.BY_NAME)
def test_recorded(name: str, program: Path) -> None:
    """A case as a kernel gave it."""
    assert judged(program, name)[0] is None


def test_recording_shows_all_differences(program: Path) -> None:
    """Each thing that may differ differs somewhere."""
    total = Tally()
    for name in rings.BY_NAME:
        total.add(judged(program, name)[1])
    assert rings.not_shown(total) == []


@pytest.mark.needs("a kernel to ask")
def test_live(program: Path, room: Path) -> None:
    """The kernel of this machine, asked now."""
    assert rings.compare_live([str(program)], room) == 0


@pytest.mark.needs("raw sockets")
def test_fragments() -> None:
    """The kernel of this machine puts the fragments of ip_defrag's tests together as the tests
    say."""
    assert list(fragments.table()) == (rings.HERE / "fragments.txt").read_text().splitlines()
