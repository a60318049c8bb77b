"""examples/blocks: dumps, and images as a program maps a ring, against the program and by hand."""
from __future__ import annotations

import struct
import sys

import pytest

from places import TOP
from tools.here import Here

FOLDER = TOP / "examples" / "blocks"
USER, LOSING, TIME_OUT = 1, 4, 32
# The status of each place of the image, by hand: two structs begin at 0 and 4096 and so on.
STATUSES = {
    # 28 of 60 frames fill a block; the third isn't handed over at the moment
    "full": [USER, USER, 0, 0],
    "timeout": [USER | TIME_OUT, 0, 0, 0],
    # the third block lies where the first was; the second was given back
    "losing": [USER | LOSING, 0],
    "tags": [USER, 0, 0, 0],
    "private": [USER, 0, 0, 0],
    "cut": [USER, 0, 0, 0],
}


def test_made_anew(here: Here) -> None:
    """The program gives the same dumps, and blocks.py the same images."""
    anew = here.path / "anew"
    anew.mkdir()
    done = here.answer([sys.executable, "-B", FOLDER / "make.py", here.program, anew])
    assert (done.said, done.status) == ("", 0)
    made = sorted(path.name for path in anew.iterdir())
    kept = [path.name for path in FOLDER.iterdir() if path.name not in ("make.py", "README.md")]
    assert made == sorted(kept)
    for name in made:
        assert (anew / name).read_bytes() == (FOLDER / name).read_bytes(), name


@pytest.mark.parametrize("name", STATUSES)
def test_statuses(name: str) -> None:
    image = (FOLDER / f"{name}.image").read_bytes()
    assert len(image) == 4096 * len(STATUSES[name])
    found = [struct.unpack_from("<I", image, place + 8)[0] for place in range(0, len(image), 4096)]
    assert found == STATUSES[name]


def test_what_is_shown() -> None:
    """A full block has 28 packets, 48 bytes of private area begin after the descriptor's 48, and
    5,000 bytes are cut to what a block has: 4096 less 48 and 82."""
    full, private, cut = (
        (FOLDER / f"{name}.image").read_bytes() for name in ("full", "private", "cut")
    )
    assert struct.unpack_from("<II", full, 12) == (28, 48)
    assert struct.unpack_from("<I", private, 16)[0] == 48 + 104  # 100 bytes, rounded up to 8
    assert struct.unpack_from("<II", cut, 48 + 12) == (4096 - 48 - 82, 5000)
    tags = (FOLDER / "tags.image").read_bytes()
    status = struct.unpack_from("<I", tags, 48 + 20)[0]
    assert (status & 80, *struct.unpack_from("<IH", tags, 48 + 32)) == (80, 0xA02A, 0x8100)


def test_slots() -> None:
    """Two slots of 2,048 bytes in a block: three are handed over, and the first was given back."""
    image = (FOLDER / "slots.image").read_bytes()
    statuses = [struct.unpack_from("<I", image, place)[0] for place in range(0, 8192, 2048)]
    assert statuses == [0, USER, USER, 0]


def test_refused(here: Here) -> None:
    words = [FOLDER / "full.blk", "--mapped", here.path / "image", "--setup", FOLDER / "full.txt"]
    said = here.tool("blocks.py", *words, "--at", "9").said
    assert said.endswith("full.blk: has 3 blocks or slots, and --at 9 is later\n")
    said = here.tool("blocks.py", *words, "--read", "4").said
    assert said.endswith("full.blk: has 3 blocks or slots by then, and --read 4 is more\n")
    assert not (here.path / "image").exists()
