"""ring_size.py with a program that stands for ringsize: what it is asked, what is made of its
answer, and that `ringtap replay` judges it."""
from __future__ import annotations

import json
import re
from fractions import Fraction
from pathlib import Path

import pytest

from places import TOP
from ringtap_tools.clock import Pace
from ringtap_tools.files import read_setup
from ringtap_tools.runs import Room
from ringtap_tools.schedule import feeds
from ringtap_tools.search import Model
from ringtap_tools.trials import Ring, just
from tools.here import BLOCK, Here, frame

WORDS = ["demo/small.txt", "--pause", "10"]


def stand_in(here: Here, monkeypatch: pytest.MonkeyPatch, lines: str, status: int = 0) -> Path:
    """A ringsize that prints some lines, and keeps what it was asked in asked.txt."""
    (here.path / "demo").symlink_to(TOP / "demo")
    name, asked = here.path / "ringsize", here.path / "asked.txt"
    printed = "".join(f"echo '{line}'\n" for line in lines.split("\n"))
    name.write_text(f"#!/bin/sh\ncat \"$1\" \"$2\" >>{asked}\n{printed}exit {status}\n")
    name.chmod(0o755)
    monkeypatch.setenv("RINGSIZE", str(name))
    return asked


def worst(here: Here, monkeypatch: pytest.MonkeyPatch) -> tuple[int, int, int]:
    """The smallest ring for the demo's capture by the tools' own model at all phases and
    beginnings, with the first of each at which it has to be so large."""
    monkeypatch.chdir(TOP)
    setup, ring = read_setup(Path("demo/small.txt")), Ring("cpu", 1, 0, 4096, 2, 2048)
    with Room(setup, here.program) as room:
        model = Model(room, feeds(room.streams(), Pace()), Pace())
        found = []
        for begin in range(10):
            one = model.with_pace(Pace(pause=Fraction(10), begin=Fraction(begin)))
            found += [(-one.least_at(ring, phase), phase, begin) for phase in range(8)]
    blocks, phase, begin = min(found)
    return -blocks, phase, begin


def answered(count: int, phase: int, begin: int, unit: str = "blocks") -> str:
    place = f"{unit} {count} phase {phase} from {begin}"
    drops = "drops least 0 phase 0 from 0 most 9 phase 0 from 0"
    rings = f"member 0 {place}\ngroup {place}\nmember 0 {drops}\ntotal {drops}"
    return f"cpu 0 frames 52 arrivals 52 end ok\n{rings}"


def test_it_finds_and_replay_judges(here: Here, monkeypatch: pytest.MonkeyPatch) -> None:
    blocks, phase, begin = worst(here, monkeypatch)
    asked = stand_in(here, monkeypatch, answered(blocks, phase, begin))
    made = here.with_program("ring_size.py", *WORDS)
    assert (made.said, made.status) == ("", 0)
    found = f"`ringsize` found it for a reader that begins {begin} ms after the first frame"
    judged = f"{blocks} blocks never freeze; {blocks - 1} blocks freeze"
    where = f"at phase {phase} of 8, and there `ringtap replay` judged"
    assert f"{found}, {where}: {judged}" in made.printed
    tried = "at every whole millisecond of the timer and of the reader's beginning"
    assert f"the smallest ring that never freezes, {tried}: {blocks} blocks" in made.printed
    lines = asked.read_text().splitlines()
    assert ["block_size 4096", "members 1"] == [
        line for line in lines if line.startswith(("block_size 4096", "members 1"))
    ][:2]
    at = lines.index("pause 10")
    assert lines[at : at + 3] == ["pause 10", "phases all", "from all"]


def test_a_wrong_answer_is_refused(here: Here, monkeypatch: pytest.MonkeyPatch) -> None:
    blocks, phase, begin = worst(here, monkeypatch)
    for wrong in (blocks - 1, blocks + 1):
        monkeypatch.chdir(here.path)
        (here.path / "demo").unlink(missing_ok=True)
        stand_in(here, monkeypatch, answered(wrong, phase, begin))
        made = here.with_program("ring_size.py", *WORDS)
        assert made.status == 1 and f"{wrong} blocks were found to be the least" in made.said


def test_no_answer_is_said(here: Here, monkeypatch: pytest.MonkeyPatch) -> None:
    said = "reader: poll has no answer yet"
    stand_in(here, monkeypatch, said, 3)
    made = here.with_program("ring_size.py", "demo/small.txt", "--poll")
    assert f"ringsize says: {said}, so the tool's own model found it" in made.printed
    made = here.with_program("ring_size.py", "demo/small.txt", "--pause", "2.5")
    assert "ringsize takes whole numbers alone, and --pause is 2.5, so the tool's" in made.printed
    monkeypatch.setenv("RINGSIZE", "none")
    made = here.with_program("ring_size.py", *WORDS)
    assert made == ("", "ring_size.py: RINGSIZE: none isn't a program\n", 1)


def test_a_fault_is_said(here: Here, monkeypatch: pytest.MonkeyPatch) -> None:
    stand_in(here, monkeypatch, "out of memory", 7)
    made = here.with_program("ring_size.py", *WORDS)
    assert "ringsize: out of memory (status 7): out of memory" in made.said and made.status == 1


# ---- slots

SLOT_WORDS = ["five.txt", "--replay2", "--pause", "5"]


def five(here: Here) -> None:
    """Three frames come at once and two 1.5 ms later. A reader that sleeps 5 ms and begins at 0 or
    1 takes the first three before the others; one that begins at 2, 3 or 4 finds all five."""
    here.capture("five.pcap", [(time, frame(time)) for time in (0, 0, 0, 1500, 1500)])
    here.text("five.txt", BLOCK + "cpu five.pcap\n")


def test_slots(here: Here, sizer: Path, monkeypatch: pytest.MonkeyPatch) -> None:
    """So five are needed. Blocks of 4096 bytes have two slots of 2048, so there are six in three of
    them; the judge's rings have just five, and four, of another size."""
    five(here)
    monkeypatch.setenv("RINGSIZE", str(sizer))
    made = here.with_program("ring_size.py", *SLOT_WORDS)
    assert (made.said, made.status) == ("", 0)
    tried = "the smallest ring that loses nothing, at every whole millisecond of the reader's"
    assert f"{tried} beginning: 6 slots of 2048 bytes, in 3 blocks of 4096 bytes;" in made.printed
    found = "`ringsize` found it for a reader that begins 2 ms after the first frame, and there"
    judged = "`ringtap replay2` judged: 5 slots lose nothing; 4 slots lose packets"
    assert f"{found} {judged}\n" in made.printed
    found = json.loads(here.with_program("ring_size.py", *SLOT_WORDS, "--json").printed)
    assert (found["found_by"], found["is_every_beginning"]) == (["ringsize"], True)
    two = next(ring for ring in found["rings"] if ring["block_nr"] == 2)
    assert (two["from"], two["drops"], two["fewest"], two["phase"]) == (2, 1, 1, 0)


def test_what_is_asked_of_slots(here: Here, monkeypatch: pytest.MonkeyPatch) -> None:
    """No phase goes with slots, and the setup has no time-out."""
    five(here)
    asked = stand_in(here, monkeypatch, answered(5, 0, 2, "slots"))
    assert here.with_program("ring_size.py", *SLOT_WORDS).status == 0
    lines = asked.read_text().splitlines()
    assert lines[-3:] == ["pause 5", "slots", "from all"]
    assert not [line for line in lines if line.startswith(("tov", "phase"))]
    # of a long period it is first seen how long a few beginnings take
    asked.unlink()
    assert here.with_program("ring_size.py", *SLOT_WORDS[:3], "1000").status == 0
    texts = re.findall(r"^pause .*\nslots\nfrom .*", asked.read_text(), re.M)
    few = ["pause 50\nslots\nfrom 0", "pause 50\nslots\nfrom all"]
    assert texts == [*few, "pause 1000\nslots\nfrom all"]


def test_wrong_slots_are_refused(here: Here, monkeypatch: pytest.MonkeyPatch) -> None:
    """By the run that judges: of four slots one frame is lost, of five and six none."""
    five(here)
    for wrong, drops in ((4, 1), (6, 0)):
        (here.path / "demo").unlink(missing_ok=True)
        stand_in(here, monkeypatch, answered(wrong, 0, 2, "slots"))
        made = here.with_program("ring_size.py", *SLOT_WORDS)
        said = f"the program counts {drops} drops, and {wrong} slots were found to be the least"
        assert made.status == 1 and said in made.said


def test_sides_that_no_setup_has(here: Here, monkeypatch: pytest.MonkeyPatch) -> None:
    """257 is a prime, and a setup has from 2 to 256 blocks, so none has as many slots; nor has one
    a single slot."""
    here.capture("prime.pcap", [(0, frame(number)) for number in range(257)])
    here.capture("one.pcap", [(0, frame(0))])
    for name, count, judged in (
        ("prime", 257, "no setup has 257 slots, so that side wasn't run; 256 slots lose packets"),
        ("one", 2, "2 slots lose nothing; no setup has 1 slot, so that side wasn't run"),
    ):
        (here.path / "demo").unlink(missing_ok=True)
        here.text(f"{name}.txt", f"{BLOCK}cpu {name}.pcap\n")
        stand_in(here, monkeypatch, answered(count, 0, 5, "slots"))
        words = [f"{name}.txt", "--replay2", "--pause", "9", "--from", "5"]
        made = here.with_program("ring_size.py", *words)
        said = f"`ringsize` found it, and there `ringtap replay2` judged: {judged}\n"
        assert (said in made.printed, made.said, made.status) == (True, "", 0)


def test_a_refused_setup_of_slots(here: Here, monkeypatch: pytest.MonkeyPatch) -> None:
    """It is said as of a run that is refused."""
    here.text("private.txt", BLOCK + "priv 8\ncpu many.pcap\n")
    stand_in(here, monkeypatch, "setup line 0: request transmit", 2)
    made = here.with_program("ring_size.py", "private.txt", *SLOT_WORDS[1:])
    assert made.said == (
        'ring_size.py: private.txt, line 5: "priv 8": a ring of replay2 has none: leave it out, or'
        " write 0 (setup line 0: request transmit)\n"
    )


def test_rings_of_just_so_many_slots() -> None:
    """Beside each setup that there is: a block has from 4096 bytes to a MiB, a slot from 80 bytes
    on in steps of 16, and there are from 2 to 256 blocks, of 64 MiB at most."""
    smallest: dict[int, int] = {}  # the smallest block that can have so many slots
    for block_size in range(4096, 1_048_577, 4096):
        for frame_size in range(80, block_size + 1, 16):
            smallest.setdefault(block_size // frame_size, block_size)
    there_are = {
        each * blocks
        for each, block_size in smallest.items()
        for blocks in range(2, 257)
        if block_size * blocks <= 67_108_864 and each * blocks <= 65_536
    }
    ring = Ring("cpu", 1, 0, 4096, 2, 2048, is_v2=True)
    for count in (*range(3000), *range(65_000, 65_540)):
        one = just(ring, count, keeps_size=False)
        assert (one is not None) == (count in there_are), count
        assert one is None or one.slots == count
    assert just(ring, 41, keeps_size=True) is None
    kept = just(ring, 42, keeps_size=True)
    assert kept is not None and (kept.slots, kept.frame_size) == (42, 2048)
