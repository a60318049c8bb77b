"""The answers of ringsize are those of a second program, for small setups with readers that are
drawn and for captures that somebody made to do harm; and `ringtap replay` and rings of each
number of blocks say the same. `--setups 300` asks for so many setups."""
from __future__ import annotations

import random
import re
from pathlib import Path

import pytest

import running
from second import hostile_captures, outcomes
from second.capture_bytes import header, record
from second.replays import frame
from second.size_cases import LONG, Judge, SizeCase, drawn, schedule
from second.readers import MILLISECOND
from second.sizes import Timed, feeds_of

RING = "block_size 4096\nblock_nr 2\nframe_size 2048\nframe_nr 4\ncpu in0.pcap\n"
SLOTS = "block_size 4096\nblock_nr 2\nframe_size 4096\nframe_nr 2\ncpu in0.pcap\n"
STRAY = 1_000_000  # the numbers of setups with a stray time begin there
KINDS = pytest.mark.parametrize("has_slots", [False, True], ids=["blocks", "slots"])
# Of frames of 1514 bytes two fit into a block. The microseconds at which they come, the reader, and
# what follows by hand from the rules: the smallest ring, the least and the most that two blocks
# drop, each with its phase and beginning.
BY_HAND = [
    # each of seven frames at once; nobody reads before the last one, which needs a fourth block
    ([0] * 7, "pause 5", "4 phase 0 from 0", "3 phase 0 from 0", "3 phase 0 from 0"),
    # the fifth frame looks for block 3; a reader that begins at once has given block 1 back
    ([0] * 3 + [500] * 2, "pause 2", "3 phase 0 from 1", "0 phase 0 from 0", "1 phase 0 from 1"),
    # a tick at 6 ms hands block 1 over, and the reader gives it back before the others come
    (
        [0] + [7000] * 4, "pause 2\nphase 2\nfrom 0", "2 phase 2 from 0", "0 phase 2 from 0",
        "0 phase 2 from 0"
    ),
    # a stall keeps it, so the fourth frame looks for block 3 with none given back
    (
        [0] + [7000] * 4, "pause 2\nphase 2\nfrom 0\nstall 6 1", "3 phase 2 from 0",
        "2 phase 2 from 0", "2 phase 2 from 0"
    ),
]


# The same of a ring of two slots, each with one frame.
SLOTS_BY_HAND = [
    # a reader at 0 or 1 ms takes the first three, which come at once, before the others
    ([0] * 3 + [1500] * 2, "pause 2", "3 phase 0 from 0", "1 phase 0 from 0", "1 phase 0 from 0"),
    # one that reads every 5 ms begins at 0 or 1, and else when all five are there
    ([0] * 3 + [1500] * 2, "pause 5", "5 phase 0 from 2", "1 phase 0 from 0", "3 phase 0 from 2"),
    # it takes one slot in a millisecond, so the first two by 1 ms; of the other three two fit
    (
        [0, 0, 1500, 1500, 1500], "blocks 1000\nfrom 0", "3 phase 0 from 0", "1 phase 0 from 0",
        "1 phase 0 from 0"
    ),
]


@pytest.mark.parametrize(("times", "reader", "ring", "least", "most"), BY_HAND)
def test_second_program_by_hand(
    times: list[int], reader: str, ring: str, least: str, most: str
) -> None:
    capture = header() + b"".join(record(frame(1514), fraction=time) for time in times)
    lines = SizeCase(RING, reader, [capture]).sizing().lines().splitlines()
    assert lines[1:] == [
        f"member 0 blocks {ring}", f"group blocks {ring}",
        f"member 0 drops least {least} most {most}", f"total drops least {least} most {most}"
    ]


def test_total_by_hand() -> None:
    """Two members, each of which loses its fifth frame at another beginning of the reader, so that
    one frame is lost at both: the first member's at 1 ms, where the reader hasn't read before it
    comes, and the second's at 0 ms, where it has read before there was a block."""
    captures = [
        header() + b"".join(record(frame(1514), fraction=time) for time in times)
        for times in ([0] * 3 + [500] * 2, [500] * 4 + [1500])
    ]
    setup = RING + "cpu in1.pcap\nmembers 2\nmode cpu\n"
    lines = SizeCase(setup, "pause 2\nphase 0\n", captures).sizing().lines().splitlines()
    assert lines[2:] == [
        "member 0 blocks 3 phase 0 from 1",
        "member 1 blocks 3 phase 0 from 0",
        "group blocks 3 phase 0 from 0",
        "member 0 drops least 0 phase 0 from 0 most 1 phase 0 from 1",
        "member 1 drops least 0 phase 0 from 1 most 1 phase 0 from 0",
        "total drops least 1 phase 0 from 0 most 1 phase 0 from 0",
    ]


@pytest.mark.parametrize(("times", "reader", "ring", "least", "most"), SLOTS_BY_HAND)
def test_slots_by_hand(times: list[int], reader: str, ring: str, least: str, most: str) -> None:
    capture = header() + b"".join(record(frame(1514), fraction=time) for time in times)
    lines = SizeCase(SLOTS, f"{reader}\nslots", [capture]).sizing().lines().splitlines()
    assert lines[1:] == [
        f"member 0 slots {ring}", f"group slots {ring}",
        f"member 0 drops least {least} most {most}", f"total drops least {least} most {most}"
    ]


def pytest_generate_tests(metafunc: pytest.Metafunc) -> None:
    if "seed" in metafunc.fixturenames:
        metafunc.parametrize("seed", range(metafunc.config.getoption("--setups")))


def printed_by(sizer: Path, room: Path, case: SizeCase) -> tuple[str, int]:
    case.write(room)
    ran, why = running.run([sizer, "conf", "reader"], cwd=room)
    assert ran is not None, why
    assert ran.stderr == b""
    return ran.stdout.decode(), ran.returncode


def expected_of(case: SizeCase) -> tuple[str, int]:
    """The lines of the second program, and the status."""
    lines = case.sizing().lines()
    ends = set(re.findall(r"^cpu .* end (\w+)", lines, re.M))
    return lines, 4 if ends != {"ok"} else 3 if lines.endswith(" ms\n") else 0


def agree(sizer: Path, room: Path, case: SizeCase) -> None:
    (lines, status), (printed, ended) = expected_of(case), printed_by(sizer, room, case)
    assert printed == lines, f"{outcomes.line_difference(lines, printed)}\n{case.shown()}"
    assert ended == status, case.shown()


@KINDS
def test_answers(seed: int, has_slots: bool, sizer: Path, room: Path) -> None:
    agree(sizer, room, drawn(seed, has_slots=has_slots))


@KINDS
def test_stray_times(seed: int, has_slots: bool, sizer: Path, room: Path) -> None:
    """One frame that is a minute, or years, before or after the others."""
    agree(sizer, room, drawn(STRAY + seed, has_stray=True, has_slots=has_slots))


@KINDS
def test_schedule_written_out(seed: int, has_slots: bool) -> None:
    """What the second program leaves out in a gap changes nothing: each line done alone gives the
    same rings."""
    sizing = drawn(seed, has_slots=has_slots).sizing()
    count = sizing.setup.frame_nr if has_slots else sizing.setup.block_nr
    for phase, begin in sizing.places:
        whole = sizing.replay(sizing.own)
        for line in schedule(sizing, count, phase, begin).splitlines():
            word, value = line.split()
            whole.line(word, int(value))
        short = Timed(sizing.replay(sizing.own), sizing.reader, phase, begin).run()
        assert [vars(ring) for ring in short] == [vars(ring) for ring in whole.rings]


@KINDS
def test_by_trying_each_ring(seed: int, has_slots: bool) -> None:
    """From 2 to 256 blocks, or slots, where a look that finds one held is noted."""
    sizing = drawn(seed, has_slots=has_slots).sizing()
    needs = [max(ring.need for ring in rings) for rings in sizing.rings(sizing.roomy)]
    assert sizing.by_trying() == sizing.smallest(needs).number


@KINDS
def test_by_ringtap(
    seed: int, has_slots: bool, sizer: Path, program: Path, room: Path
) -> None:
    """`ringtap replay` at each phase and beginning: the ring that is answered freezes nowhere, each
    smaller one at its place, and the setup's own rings drop what is answered, each and all
    together. For slots it is `replay2`, and a ring that is too small drops."""
    case = drawn(seed, has_slots=has_slots)
    judge = Judge(program, room, case, case.sizing())
    printed, _ = printed_by(sizer, room, case)
    line = r"^member (\d+) (?:blocks|slots) (\d+) phase (\d+) from (\d+)"
    answers = re.findall(line, printed, re.M)
    ranges = re.findall(r"^member \d+ (drops .*\n)", printed, re.M)
    totals = re.findall(r"^total (drops .*\n)", printed, re.M)
    assert (answers == []) == (totals == []) == judge.sizing.setup.rolls_over()
    for (member, blocks, phase, begin), found in zip(answers, ranges, strict=True):
        place = int(phase), int(begin)
        assert judge.is_smallest(int(member), int(blocks), place), f"{printed}{case.shown()}"
        mine = judge.sizing.range(judge.drops(int(member)))
        assert found == mine, f"{printed}{case.shown()}"
    for found in totals:
        assert found == judge.sizing.range(judge.totals()), f"{printed}{case.shown()}"


def test_setups_are_short() -> None:
    """So that their schedules can be written out."""
    sizings = [drawn(seed, has_slots=seed % 2 > 0).sizing() for seed in range(100)]
    ends = [feeds_of(sizing.replay(sizing.own).frames)[-1].moment for sizing in sizings]
    assert max(ends) <= LONG * MILLISECOND


# ---- captures that somebody made to do harm

SHARES = 8
READERS = ("pause 3\nfrom 1\n", "blocks 400\nphase 1\nfrom 0\nstall 5 900\n")


@pytest.mark.parametrize("share", range(SHARES))
def test_hostile_captures(share: int, sizer: Path, room: Path) -> None:
    numbers = random.Random(7)
    captures = [
        *hostile_captures.extremes(), *hostile_captures.cuts(), *hostile_captures.changed(400)
    ]
    for at, capture in enumerate(captures):
        text, reader = RING + numbers.choice(["tov 2\n", "flag defrag\ntov 3\n"]), READERS[at % 2]
        if at % SHARES == share:
            agree(sizer, room, SizeCase(text, reader, [capture]))
