"""What is said where a group rolls over, and what a kernel would lose, by a sum by hand."""
from __future__ import annotations

import json

from tools.here import BLOCK, Here, frame

NOTE = "rollover: a kernel loses more, in measured runs up to 39 percent"
# Of 400 frames at once 28 fill a block, and nobody reads. Each of two members has 4 blocks. ringtap
# keeps 4 * 28 at the home and 4 * 28 at the backup. A kernel's backup takes packets only while more
# than one of its 4 blocks is free, so with the block that is open at most three are filled: 3 * 28
# of 4 * 28.
RING = "block_size 4096\nblock_nr 4\nframe_size 2048\nframe_nr 8\ntov 60000\n"


def test_kernel_by_hand(here: Here) -> None:
    """ringtap drops 400 - 224 = 176. A kernel's home loses the frame that finds it full as well,
    which its test of the room lets in, and its backup leaves a block: it opens its fourth block for
    the first frame after 84, since the room is looked at before; so it drops
    400 - 112 - 85 = 203."""
    here.capture("many.pcap", [(number, frame(number)) for number in range(400)])
    here.text("many.txt", RING + "members 2\nmode cpu\nflag rollover\ncpu many.pcap\n")
    words = ["many.txt", "--block-nr", "4", "--phases", "1", "--tick", "0"]
    answer = here.with_program("ring_size.py", *words)
    assert answer.said.startswith(NOTE)
    assert "by the tool's own model: 203 dropped by 4 blocks" in answer.printed
    assert "the program drops 176\n" in answer.printed
    found = json.loads(here.with_program("ring_size.py", *words, "--json").printed)
    assert [ring["kernel_drops"] for ring in found["rings"]] == [203]
    answer = here.with_program("report.py", "many.txt", "--tick", "0", "-o", "page.html")
    assert (answer.said.count(NOTE), answer.status) == (1, 0)
    page = (here.path / "page.html").read_text()
    assert "most, as a kernel rolls over" in page and page.count(NOTE) == 1


def test_note_everywhere(here: Here) -> None:
    """Each tool that runs such a setup says it once; without rollover none does."""
    here.capture("few.pcap", [(0, frame(0))])
    for flag, count in (("flag rollover\n", 1), ("", 0)):
        here.text("few.txt", BLOCK + f"members 2\nmode cpu\n{flag}cpu few.pcap\n")
        for name in ("lost.py", "timeline.py"):
            for words in ([], ["--json"]):
                said = here.with_program(name, "few.txt", "/dev/null", *words).said
                assert said.count(NOTE) == count
        words = ["replay", "few.txt", "/dev/null", "--into", f"run{count}"]
        assert here.with_program("run.py", *words).said.count(NOTE) == count
