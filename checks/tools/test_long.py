"""Compares what tools/long.py adds up from pieces with a whole run of the program.

`LONG_SETUPS` in the environment is how many random setups are run in pieces (16).
"""
from __future__ import annotations

import json
import os
import random
from dataclasses import dataclass, field

import pytest

from ringtap_tools import cut_members, long
from ringtap_tools.cut_members import Limits
from ringtap_tools.cut_pieces import Piece, Place, begun
from ringtap_tools.cut_rings import BlockRing
from ringtap_tools.deals import PieceRoom
from ringtap_tools.files import Fault, read_setup
from ringtap_tools.long import LongRun, lines_of, parser_of
from ringtap_tools.runs import Report
from ringtap_tools.schedule import pace_of
from second.capture_bytes import header
from second.hash_values import KEY
from tools.here import BLOCK, Here, frame, record_at

SETUPS = int(os.environ.get("LONG_SETUPS", "16"))
LONG_TEXTS = 6  # further ones, whose pieces end where their schedules are long
ALL, SHORT = "1\n6 0 0 262144\n", "1\n6 0 0 60\n"
LONG = "4\n128 0 0 0\n37 0 1 200\n6 0 0 0\n6 0 0 90\n"  # of more than 200 bytes the first 90
READERS = (
    [], ["--pause", "7"], ["--pause", "0.5"], ["--blocks", "90"], ["--bytes", "1M"], ["--poll"],
    ["--poll", "3"],
)


@dataclass
class Case:
    """A setup, its captures, and the words of a pace."""

    setup: list[str]
    captures: list[bytes]
    words: list[str]
    texts: dict[str, str] = field(default_factory=dict)


def random_frame(given: random.Random) -> bytes:
    """A frame of a flow of its own, at times with a tag, at times a runt."""
    ends = bytes([10, 0, 0, given.randrange(6), 10, 0, 1, given.randrange(6)])
    tag = given.choice([b"", b"", b"\x81\x00\x00\x05"])
    head = b"\x45\0\0\x20\0\0\0\0\x40\x11\0\0" + ends + b"\0\1\0\2"
    size = given.choice([0, 0, 40, 400, given.randrange(1400)])
    data = bytes(12) + tag + b"\x08\0" + head + bytes(size)
    return data[: given.randrange(20)] if given.random() < 0.05 else data


def random_capture(given: random.Random) -> bytes:
    """Bursts and silences."""
    moment, records = given.randrange(20_000), []
    for _ in range(given.randrange(5, 60)):
        moment += int(given.choice([0, 200, 2_000, 30_000]) * given.random() * 2)
        records.append(record_at(moment, random_frame(given)))
    return header() + b"".join(records)


def random_pace(given: random.Random, is_v2: bool) -> list[str]:
    words = list(given.choice(READERS))
    if words[:1] not in ([], ["--poll"]) and given.random() < 0.3:
        words += ["--from", str(given.randrange(12))]
    if words and given.random() < 0.3:
        words += ["--stall", f"{given.randrange(60)}:{given.randrange(1, 90)}"]
    if not is_v2:
        words += given.choice([[], [], ["--tick", "1"], ["--tick", "5"], ["--tick", "0"]])
        words += ["--phase", str(given.randrange(8))] if given.random() < 0.5 else []
    words += ["--stats", given.choice(["0.01", "0.033"])] if given.random() < 0.5 else []
    words += given.choice([[], [], ["--speed", "3"], ["--pps", "900"], ["--mbps", "2"]])
    return words + ["--replay2"] * is_v2


def random_case(seed: int) -> Case:
    given = random.Random(f"long {seed}")
    is_v2, block = given.random() < 0.2, given.choice([4096, 4096, 8192])
    count = given.randrange(2, 5)
    slots = block // 2048 * count
    setup = [f"block_size {block}", f"block_nr {count}", "frame_size 2048", f"frame_nr {slots}"]
    if not is_v2:
        setup += [f"tov {given.choice([0, 3, 10, 40])}", f"priv {given.choice([0, 0, 13, 1000])}"]
    mode = given.choice(["cpu", "lb", "qm", "hash"])
    setup += [f"mode {mode}", f"members {given.randrange(1, 4)}", f"key {KEY}"]
    texts = {}
    if given.random() < 0.6:
        texts["filter.ddd"] = given.choice([ALL, SHORT, LONG])
        setup.append("filter filter.ddd")
    captures = [random_capture(given) for _ in range(given.randrange(1, 4))]
    setup += [f"cpu {cpu}.pcap {given.randrange(5)}" for cpu in range(len(captures))]
    return Case(setup, captures, random_pace(given, is_v2), texts)


def in_pieces(here: Here, words: list[str]) -> LongRun:
    """A run in pieces, of `setup.txt`."""
    args = parser_of().parse_args([str(here.path / "setup.txt"), *words])
    setup = read_setup(args.setup)
    with PieceRoom(setup, here.program) as room:
        room.check()
        run = LongRun(setup, room, pace_of(args), args)
        run.make()
    return run


def compared(here: Here, case: Case, piece: int) -> LongRun:
    """A case in pieces and as a whole run, which print the same."""
    for name, text in {**case.texts, "setup.txt": "\n".join([*case.setup, "out out", ""])}.items():
        here.text(name, text)
    for cpu, capture in enumerate(case.captures):
        here.saved(f"{cpu}.pcap", capture)
    words = [word for word in case.words if word != "--replay2"]
    more = ["--replay2"] if "--replay2" in case.words else []
    made = here.with_program("schedule.py", "setup.txt", *words, *more, "-o", "all.sched")
    assert made == ("", "", 0)
    command = "replay2" if more else "replay"
    whole = here.answer([here.program, command, "setup.txt", "all.sched"])
    run = in_pieces(here, [*case.words, "--piece", str(piece)])
    assert (lines_of(run), whole.said, whole.status) == (whole.printed.splitlines(), "", 0)
    return run


@pytest.mark.parametrize("seed", range(SETUPS))
def test_pieces_add_up(here: Here, seed: int, monkeypatch: pytest.MonkeyPatch) -> None:
    monkeypatch.chdir(here.path)
    compared(here, random_case(seed), 1024 + seed % 3 * 3000)


@pytest.mark.parametrize("seed", range(SETUPS, SETUPS + LONG_TEXTS))
def test_long_texts_are_cut(here: Here, seed: int, monkeypatch: pytest.MonkeyPatch) -> None:
    """A piece ends where its schedule is long, between two frames too."""
    monkeypatch.chdir(here.path)
    monkeypatch.setattr(long, "Limits", lambda size: Limits(size, 200))
    compared(here, random_case(seed), 8192)


def test_by_hand(here: Here) -> None:
    """28 packets of 144 bytes go into a block of 4,096 less 48, so two blocks keep 56 of 100."""
    made = here.with_program("long.py", "many.txt", "--piece", "1024")
    lines = made.printed.splitlines()
    assert lines[:4] == [
        "cpu 0 frames 100 arrivals 100 end ok",
        "member 0 packets 100 drops 44 freezes 1 blocks 2",
        "total arrivals 100 filtered 0 kept 56 drops 44",
        "",
    ]
    # 14 records of 76 bytes are the first with more than 1,024 bytes: 8 pieces, the last one of 2.
    state = "7 with a beginning that brings a new ring to the state there"
    again = "7 were run again with two rings before them"
    assert lines[4:] == [f"8 pieces begun: 1 at the run's begin, {state}; {again}"]
    made = here.with_program("long.py", "many.txt", "--piece", "1024", "--json")
    found = json.loads(made.printed)
    assert found["total"] == {"arrivals": 100, "filtered": 0, "kept": 56, "drops": 44}
    assert found["pieces"] == {"new": 1, "pause": 0, "state": 7, "again": 7}


def test_pauses(here: Here) -> None:
    """Bursts of 14 frames with a second between: a reader that comes each 10 ms takes all blocks,
    and then the timer comes, so each burst but the first begins at a pause."""
    frames = [(burst * 1_000_000, frame(burst)) for burst in range(5) for _ in range(14)]
    here.capture("bursts.pcap", frames)
    here.text("bursts.txt", BLOCK + "cpu bursts.pcap\n")
    made = here.with_program("long.py", "bursts.txt", "--piece", "1024", "--pause", "10")
    assert made.printed.splitlines()[1:] == [
        "member 0 packets 70 drops 0 freezes 0 blocks 5",
        "total arrivals 70 filtered 0 kept 70 drops 0",
        "",
        "5 pieces begun: 1 at the run's begin, 4 at a pause",
    ]


def test_little_is_on_the_disk(here: Here, monkeypatch: pytest.MonkeyPatch) -> None:
    """Of frames of 14 bytes, whose dump is the largest beside their capture, pieces of a MiB have
    eight times that in the folder at most; so it is 64 MiB with pieces of 8 MiB."""
    sizes, replay = [], PieceRoom.replay

    def watched(room: PieceRoom, *words: str) -> Report:
        report = replay(room, *words)
        found = [path for path in room.folder.iterdir() if not path.is_symlink()]
        sizes.append(sum(path.stat().st_size for path in found if path.exists()))
        return report

    monkeypatch.setattr(PieceRoom, "replay", watched)
    monkeypatch.chdir(here.path)
    here.capture("small.pcap", [(20 * number, frame(number)[:14]) for number in range(90_000)])
    here.text("setup.txt", BLOCK + "cpu small.pcap\n")
    run = in_pieces(here, ["--piece", str(1 << 20), "--blocks", "900"])
    assert sum(count.totals()[0] for count in run.counts) == 90_000
    assert len(sizes) > 4 and 1 << 20 < max(sizes) < 8 << 20


def test_more_members_than_a_run_has(here: Here) -> None:
    """Ten CPUs and nine members: CPU 9 goes to member 0, which so has two of ten captures."""
    cpus = "".join(["cpu many.pcap\n"] * 10)
    here.text("wide.txt", f"{BLOCK}members 9\n{cpus}")
    made = here.with_program("long.py", "wide.txt").printed.splitlines()
    assert made[9:13] == [
        "cpu 9 frames 100 arrivals 100 end ok",
        "member 0 packets 200 drops 144 freezes 1 blocks 2",
        "member 1 packets 100 drops 44 freezes 1 blocks 2",
        "member 2 packets 100 drops 44 freezes 1 blocks 2",
    ]
    assert made[19] == "total arrivals 1000 filtered 0 kept 504 drops 496"


def test_refused(here: Here) -> None:
    for word, reason in (
        ("flag rollover", "its group rolls over, so what a member is given depends on the rings"),
        ("flag defrag", "with `flag defrag` a datagram may begin in one part of a capture and"),
        ("block_size 5000", "block_size 4096"),
    ):
        here.text("no.txt", BLOCK.replace("block_size 4096", "") + f"{word}\ncpu many.pcap\n")
        if "block_size" not in word:
            here.text("no.txt", BLOCK + f"{word}\ncpu many.pcap\n")
        made = here.with_program("long.py", "no.txt")
        assert (made.printed, made.status) == ("", 1)
        assert made.said.startswith("long.py: no.txt") and reason in made.said
    here.text("two.ddd", "1\n6 0 0 5\n")
    here.text("no.txt", BLOCK + "cpu many.pcap\nfilter two.ddd\n")
    assert "keeps 5 bytes of a packet" in here.with_program("long.py", "no.txt").said


def overloaded(here: Here) -> Case:
    """A ring that is full again and again, and a slow reader."""
    setup = ["block_size 4096", "block_nr 3", "frame_size 2048", "frame_nr 6", "cpu 0.pcap"]
    records = [record_at(number * 100, frame(number)) for number in range(400)]
    return Case(setup, [header() + b"".join(records)], ["--blocks", "150"])


def test_a_wrong_state_is_noticed(here: Here, monkeypatch: pytest.MonkeyPatch) -> None:
    """By the program where the rule is wrong, and by the overlap where a beginning is."""
    monkeypatch.chdir(here.path)
    case = overloaded(here)
    assert compared(here, case, 2048).ways["state"] > 5
    with monkeypatch.context() as patch:
        patch.setattr(BlockRing, "read", lambda ring: None)
        with pytest.raises(Fault, match="the tool's own state gives"):
            compared(here, case, 2048)
    made = 0

    def wrong(new: BlockRing, place: Place) -> Piece:
        """Every second beginning, which is that of a piece and not of an overlap, has a block less
        with the reader."""
        nonlocal made
        made += 1
        if made % 2 == 0 and place.ring.out:
            place.ring.out -= 1
        return begun(new, place)

    monkeypatch.setattr(cut_members, "begun", wrong)
    with pytest.raises(Fault, match="with two rings before it"):
        compared(here, case, 2048)
