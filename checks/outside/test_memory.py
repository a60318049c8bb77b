"""Refuses each request for memory of a run in turn: of a check, of a replay with a dump, of one
over slots, of a few frames that are made, of a capture that is sent, and of captures on threads,
without a pool of workers and with one. Every such run ends, with status 7, or with the status,
the lines and the files of a run with ample memory; with status 7 each file is what that run
saves, or what was there before; and no thread is left. On threads the number of a request may be
another one at each run; what the runs here give is the same. Then each thread in turn can't be
started: such a run gives what every other gives."""
from __future__ import annotations

import shutil
from pathlib import Path

import pytest

from outside.refusing import OLD, Refusing
from places import TOP

pytestmark = pytest.mark.needs("cc")

# Two CPUs, each with a member, a filter that passes all, and a timer whose moments close no block.
TWO = "cpu a.pcap\nmembers 2\nfilter pass.ddd\nticks ticks.txt\n"
# The words of a run, and how many requests it makes at least.
RUNS = [
    ("check two.txt", 10), ("replay setup.txt schedule.txt", 20),
    ("replay2 setup.txt schedule.txt", 20), ("make make.txt", 20), ("send setup.txt", 20),
    ("capture setup.txt", 20), ("capture two.txt", 20), ("capture pool.txt", 20),
]


@pytest.fixture
def refusing(room: Path, program: Path) -> Refusing:
    shutil.copytree(TOP / "crates/ringtap/data", room, dirs_exist_ok=True)
    setup = (room / "setup.txt").read_text() + "dump yes\n"
    for name, text in {
        "setup.txt": setup, "make.txt": setup + "make 1 3\n", "two.txt": setup + TWO,
        "pool.txt": setup + TWO + "workers 2\n", "ticks.txt": "1\n2\n",
        "pass.ddd": "1\n6 0 0 262144\n",
    }.items():
        (room / name).write_text(text)
    return Refusing(room, program)


@pytest.mark.parametrize(("words", "least"), RUNS, ids=[words for words, _ in RUNS])
def test_refused_memory(words: str, least: int, refusing: Refusing) -> None:
    ample = refusing.run(words)
    assert ample.status == 0
    number = 0
    for number, ended in refusing.each(words, "REFUSED", ample.files):
        if ended.status == 7:
            kept = {name for name, text in ended.files.items() if text == OLD}
            assert ended.files == ample.files | dict.fromkeys(kept, OLD), f"request {number}"
            assert ended.lines.splitlines()[-1] == "out of memory", f"request {number}"
        else:
            assert ended == ample, f"request {number}"
    assert number >= least


@pytest.mark.parametrize("words", ["capture setup.txt", "capture two.txt", "capture pool.txt"])
def test_refused_threads(words: str, refusing: Refusing) -> None:
    ample = refusing.run(words)
    assert ample.status == 0
    number = 0
    for number, ended in refusing.each(words, "NO_THREAD", ample.files):
        assert ended == ample, f"thread {number}"
    assert number > 0
