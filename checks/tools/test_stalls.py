"""ring_size.py beside `ringtap replay` at every phase: of random stops of a reader of a recorded
stream, the answer never freezes at any of them, and one block less does at one.

`ringsize` answers for every beginning of the reader too, the tool's own model for the one that it
names. `STALLS` in the environment is how many stops are tried (2).
"""
from __future__ import annotations

import json
import os
import random
from fractions import Fraction
from pathlib import Path

import pytest

from places import TOP
from ringtap_tools.clock import Pace
from ringtap_tools.files import read_setup
from ringtap_tools.runs import Room
from ringtap_tools.schedule import feeds
from ringtap_tools.trials import LEAST_BLOCKS, Ring, Trials
from tools.here import BLOCK, Here

STALLS = int(os.environ.get("STALLS", "2"))
STREAM = TOP / "demo" / "lo.pcap"  # 1,210 ms, recorded on lo
TIMEOUT = 8  # milliseconds


def compared(here: Here, seed: int, finder: str) -> None:
    """A stop, by ringsize or by the model."""
    given = random.Random(f"stall {seed}")
    pause, start, length = given.randrange(2, 6), given.randrange(1200), given.randrange(1, 900)
    here.text("stream.txt", BLOCK + f"cpu {STREAM}\n")
    words = ["stream.txt", "--pause", pause, "--stall", f"{start}:{length}", "--json"]
    made = here.with_program("ring_size.py", *words)
    assert (made.said, made.status) == ("", 0)
    found = json.loads(made.printed)
    blocks = found["least"]["block_nr"]
    assert (found["found_by"], found["is_every_beginning"]) == ([finder], finder == "ringsize")
    begins = range(pause) if finder == "ringsize" else [pause]
    assert found["reader"]["first_step"] == pause
    stall = Fraction(start), Fraction(length)
    pace = Pace(pause=Fraction(pause), stalls=(stall,))
    setup = read_setup(here.path / "stream.txt")
    freezes = {count: 0 for count in {blocks, max(blocks - 1, LEAST_BLOCKS)}}
    with Room(setup, here.program) as room:
        trials = Trials(room, feeds(room.streams(), pace), pace, 1, 1)
        for count in freezes:
            ring = Ring("cpu", 1, TIMEOUT, 4096, count, 2048)
            places = [(phase, begin) for phase in range(TIMEOUT) for begin in begins]
            runs = [trials.run(ring, phase, begin=begin) for phase, begin in places]
            freezes[count] = sum(run.freezes for run in runs)
    assert freezes.pop(blocks) == 0
    assert all(freezes.values()), "one block less is enough too"


@pytest.mark.parametrize("seed", range(STALLS))
def test_by_ringsize(
    here: Here, seed: int, sizer: Path, monkeypatch: pytest.MonkeyPatch
) -> None:
    monkeypatch.setenv("RINGSIZE", str(sizer))
    compared(here, seed, "ringsize")


@pytest.mark.parametrize("seed", range(STALLS))
def test_by_the_model(here: Here, seed: int, monkeypatch: pytest.MonkeyPatch) -> None:
    monkeypatch.delenv("RINGSIZE", raising=False)
    compared(here, seed, "model")
