"""long.py --smallest: a large capture is given to ringsize in parts, by pipes, with lines `more`.

A program stands for ringsize: it reads the captures of the setup and the further files of the
reader's text, one after another, and keeps the frames that it was given.
"""
from __future__ import annotations

import gzip
import json
import sys
from fractions import Fraction
from pathlib import Path

import pytest

from places import TOP
from ringtap_tools.captures import CaptureStream
from ringtap_tools.clock import Pace
from ringtap_tools.deals import PieceRoom
from ringtap_tools.file_parts import PartsAsker, most_parts, ring_of
from ringtap_tools.files import read_setup
from ringtap_tools.ringsizes import NotAsked, Sized
from tools.here import BLOCK, Here, frame

LARGEST = 700_000  # bytes of a part
READER = """
import struct, sys
files = {}
for line in open(sys.argv[1]):
    word, *values = line.split() or ["#"]
    if word == "cpu":
        files[len(files)] = [values[0]]
for line in open(sys.argv[2]):
    word, *values = line.split() or ["#"]
    if word == "more":
        files[int(values[0])].append(values[1])
unit = "slots" if "slots\\n" in open(sys.argv[2]) else "blocks"
for cpu, names in files.items():
    for name in names:
        data, at = open(name, "rb").read(), 24
        while at < len(data):
            length = struct.unpack_from("<I", data, at + 8)[0]
            kept.write(data[at : at + 16 + length])
            at += 16 + length
        told.write(f"{cpu} {len(data)}\\n")
print(f"group {unit} 3 phase 1 from 2")
"""


def stand_in(here: Here, text: str) -> Path:
    """A program of a few lines."""
    path = here.path / "ringsize"
    opened = "".join(
        f"{name} = open({str(here.path / name)!r}, {how!r})\n"
        for name, how in (("kept", "wb"), ("told", "w"))
    )
    path.write_text(f"#!{sys.executable}\n{opened}{text}")
    path.chmod(0o755)
    return path


def asked(here: Here, program: Path, captures: list[str], is_v2: bool = False) -> Sized:
    """What the program answers for captures."""
    here.text("large.txt", BLOCK + "".join(f"cpu {here.path / name}\n" for name in captures))
    setup, pace = read_setup(here.path / "large.txt"), Pace(pause=Fraction(10))
    with PieceRoom(setup, here.program) as room:
        asker = PartsAsker(program, room, pace, ring_of(setup, is_v2), LARGEST)
        return asker.smallest(lambda count: None)


@pytest.mark.parametrize("is_v2", [False, True], ids=["blocks", "slots"])
def test_parts(here: Here, is_v2: bool) -> None:
    """2,000 frames of 1,000 bytes are 2,032,000 with their records. A part has room for 688 of
    1,016 bytes, and as many parts are named as there could be with one frame of the largest size
    more in each: 1 + 2032024 // (700000 - 262144 - 40) = 5, so the last two are empty."""
    here.capture("large.pcap", [(number, frame(number, 1000)) for number in range(2000)])
    assert most_parts(2_032_024, LARGEST) == 5
    found = asked(here, stand_in(here, READER), ["large.pcap", "many.pcap"], is_v2)
    assert found == Sized(3, 1, 2)
    sizes = [line.split() for line in (here.path / "told").read_text().splitlines()]
    of_first = [24 + 688 * 1016] * 2 + [24 + (2000 - 2 * 688) * 1016] + [24] * 2
    assert sizes == [["0", str(size)] for size in of_first] + [["1", str(24 + 100 * 76)]]
    kept = (here.path / "kept").read_bytes()
    given = [one.data for one in CaptureStream(here.path / "large.pcap")]
    assert [kept[at + 16 : at + 1016] for at in range(0, 2000 * 1016, 1016)] == given


def test_gzip_comes_in_parts(here: Here) -> None:
    """ringsize reads no gzip, so it is given what was packed."""
    packed = gzip.compress((here.path / "many.pcap").read_bytes())
    here.saved("many.pcap.gz", packed)
    assert asked(here, stand_in(here, READER), ["many.pcap.gz"]) == Sized(3, 1, 2)
    assert (here.path / "told").read_text() == f"0 {24 + 100 * 76}\n"


def test_a_program_without_further_files(here: Here) -> None:
    """It is tried first on an empty capture, and what it says is the reason."""
    here.capture("large.pcap", [(number, frame(number, 1000)) for number in range(2000)])
    refusing = "print('reader: more has no answer yet')\nsys.exit(3)\n"
    with pytest.raises(NotAsked, match="ringsize says: reader: more has no answer yet"):
        asked(here, stand_in(here, "import sys\n" + refusing), ["large.pcap"])


def test_a_program_that_ends_early(here: Here) -> None:
    """One that reads no further file leaves nobody waiting."""
    here.capture("large.pcap", [(number, frame(number, 1000)) for number in range(2000)])
    program = stand_in(here, "print('group blocks 3 phase 1 from 2')\n")
    assert asked(here, program, ["large.pcap"]) == Sized(3, 1, 2)


def test_line(here: Here, monkeypatch: pytest.MonkeyPatch) -> None:
    """What long.py says, of the demo's capture by ringsize itself where it is there."""
    monkeypatch.setenv("RINGSIZE", str(stand_in(here, READER)))
    words = ["many.txt", "--pause", "10", "--smallest"]
    made = here.with_program("long.py", *words)
    said = "3 blocks of 4096 bytes; so many are needed at phase 1, for a reader that begins 2 ms"
    assert (said in made.printed.splitlines()[-1], made.said, made.status) == (True, "", 0)
    found = json.loads(here.with_program("long.py", *words, "--json").printed)
    assert found["smallest"] == {"blocks": 3, "phase": 1, "begin": 2}
    made = here.with_program("long.py", "many.txt", "--smallest")
    assert made.printed.splitlines()[-1] == "no smallest ring: nobody reads"
    made = here.with_program("long.py", *words, "--from", "2")
    assert "never freezes, at every whole millisecond of the timer: 3 blocks" in made.printed


def test_line_of_slots(here: Here, monkeypatch: pytest.MonkeyPatch) -> None:
    """The same words for slots, which have no timer."""
    monkeypatch.setenv("RINGSIZE", str(stand_in(here, READER)))
    words = ["many.txt", "--replay2", "--pause", "10", "--smallest"]
    least, first = "the smallest ring that loses nothing", "begins 2 ms after the first frame"
    tried = ", at every whole millisecond of the reader's beginning"
    needed = f"3 slots of 2048 bytes; so many are needed for a reader that {first} (by `ringsize`)"
    for more, where in (([], tried), (["--from", "2"], "")):
        made = here.with_program("long.py", *words, *more)
        assert made.printed.splitlines()[-1] == f"{least}{where}: {needed}"
    found = json.loads(here.with_program("long.py", *words, "--json").printed)
    assert found["smallest"] == {"slots": 3, "phase": 1, "begin": 2}


def test_no_smallest_ring(here: Here, monkeypatch: pytest.MonkeyPatch) -> None:
    """Of nothing that comes, and of a part, none is asked for; the status is 4."""
    monkeypatch.setenv("RINGSIZE", str(stand_in(here, READER)))
    here.text("none.ddd", "1\n6 0 0 0\n")
    here.capture("none.pcap", [])
    here.saved("part.pcap", (here.path / "many.pcap").read_bytes()[:-1])
    for lines, reason in (
        ("cpu many.pcap\nfilter none.ddd\n", "the filter refuses each of 100 arrivals"),
        ("cpu none.pcap\n", "no frame arrives"),
        ("cpu part.pcap\n", "part.pcap ends truncated 7548 after 99 frames"),
    ):
        here.text("no.txt", BLOCK + lines)
        made = here.with_program("long.py", "no.txt", "--pause", "10", "--smallest")
        last = made.printed.splitlines()[-1]
        assert (last, made.status) == (f"no smallest ring: {reason}", 4)
    assert not (here.path / "told").exists()


def test_beside_ring_size(here: Here, sizer: Path, monkeypatch: pytest.MonkeyPatch) -> None:
    """long.py and ring_size.py name the same ring."""
    monkeypatch.setenv("RINGSIZE", str(sizer))
    (here.path / "demo").symlink_to(TOP / "demo")
    words = ["demo/small.txt", "--pause", "10", "--json"]
    found = json.loads(here.with_program("long.py", *words, "--smallest").printed)
    least = json.loads(here.with_program("ring_size.py", *words).printed)["least"]
    assert found["smallest"]["blocks"] == least["block_nr"]


def test_slots_beside_ring_size(
    here: Here, sizer: Path, monkeypatch: pytest.MonkeyPatch
) -> None:
    """100 frames come within 100 microseconds, so a reader that begins later than the first of them
    needs a slot for each; a block of 4096 bytes has two of 2048."""
    monkeypatch.setenv("RINGSIZE", str(sizer))
    words = ["many.txt", "--replay2", "--pause", "10", "--json"]
    found = json.loads(here.with_program("long.py", *words, "--smallest").printed)
    assert found["smallest"] == {"slots": 100, "phase": 0, "begin": 1}
    made = json.loads(here.with_program("ring_size.py", *words).printed)
    assert (made["least"]["block_nr"], made["found_by"]) == (50, ["ringsize"])
