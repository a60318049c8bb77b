"""Compares what tools/timeline.py says with steps that were worked out by hand, and with the
program over runs of many kinds.

A frame of 60 bytes takes 144 bytes of a block, of which one of 4096 bytes has 4048 for packets,
so 28 frames.
"""
from __future__ import annotations

import json
import random
import subprocess
import sys

from second.hash_values import KEY
from places import TOP
from ringtap_tools.files import read_setup
from ringtap_tools.notes import rollover_note
from tools.here import BLOCK, Here, datagram, frame


def rows(printed: str) -> list[tuple[str, str, str]]:
    """The events: line, what the reader has, and what happened."""
    found = []
    for line in printed.split("\n\n")[0].split("\n")[1:]:
        _, number, has, _, count, words = line.split(maxsplit=5)
        found.append((number, f"{has} of {count}", words))
    return found


def test_story(here: Here) -> None:
    """Frames 0 to 27 fill block 1 and 28 to 55 block 2, as none is read; frame 57 finds block 1
    given back."""
    here.capture("many.pcap", [(1000 * number, frame(number)) for number in range(100)])
    setup = here.text("many.txt", BLOCK + "cpu many.pcap\ntov 50\n")
    here.text(
        "story.sched",
        "feed 0\n" * 57 + "read 0\n" + "feed 0\n" * 2 + "tick 20\nread 0\ntick 60\nstats 0\n"
    )
    printed, said, status = here.with_program(
        "timeline.py", setup, "story.sched", "--picture", "story.svg"
    )
    wanted = [
        ("29", "1 of 2", "frame 28 doesn't fit: block 1 is retired, block 2 is opened"),
        (
            "57", "2 of 2",
            "frame 56 doesn't fit: block 2 is retired; block 1 is still the reader's: the ring "
            "freezes, frame 56 is dropped"
        ),
        ("58", "1 of 2", "read: block 1 is given back"),
        ("59", "1 of 2", "frame 57: block 3 is opened, and the ring goes on"),
        ("62", "0 of 2", "read: block 2 is given back"),
        # Frame 57 set the deadline to 0 and 50 ms, which has come at 60.
        ("63", "1 of 2", "tick at 60 ms: block 3 is retired, block 4 is opened"),
        ("64", "1 of 2", "statistics: packets 59, drops 1, freezes 1"),
        # Frames 59 to 86 are the 28 of block 4.
        (
            "end", "2 of 2",
            "frame 87 doesn't fit: block 4 is retired; block 3 is still the reader's: the ring "
            "freezes, frame 87 is dropped"
        ),
        ("end", "2 of 2", "frames 88 to 99 are dropped, 12 in all"),
        ("end", "1 of 2", "read: block 3 is given back"),
        ("end", "0 of 2", "read: block 4 is given back"),
    ]
    assert (rows(printed), said, status) == (wanted, "", 0)
    sums = printed.split("\n\n")[1].split("\n")[1].split()
    # The first moment at which the reader has both blocks is that of frame 56.
    assert sums == ["0", "86", "14", "2", "4", "2", "2", "0.056000000"]
    # 28 packets of 144 bytes are 4,032, so two full blocks have 8,064 of 2 * (4,096 - 48).
    frozen = [
        "member 0: frozen from 0.056 to 0.057 s, 1 dropped",
        "member 0: frozen from 0.087 to 0.099 s, 13 dropped",
    ]
    assert here.titles("story.svg") == [
        "member 0: at most 2 of 2 blocks", *frozen,
        "member 0: at most 8,064 of 8,096 bytes", *frozen,
    ]
    made = json.loads(
        here.with_program("timeline.py", setup, "story.sched", "--json", "--first", "1")[0]
    )
    assert made["events"][0] == {
        "seconds": 0.028, "line": made["events"][0]["line"], "member": 0, "reader_has": 1,
        "kind": "full", "cpu": 0, "frame": 29, "retired": 1, "opened": 2,
    }
    member = made["members"][0]
    assert (member["drops"], member["at"], member["most_bytes"]) == (14, 0.056, 8064)
    # The first frame takes 144 bytes, and the 29th comes while the reader has a whole block.
    assert member["bytes"][:2] == [[0.0, 0], [0.0, 144]]
    assert [0.028, 4032 + 144] in member["bytes"]


def test_demo(here: Here) -> None:
    """The demo's small ring, as docs/guide.md goes through it; from a pipe too."""
    words = [
        sys.executable, "-I", "-B", str(TOP / "tools/timeline.py"), "demo/small.txt", "-",
        "--program", str(here.program)
    ]
    with open(TOP / "demo/schedule.txt", "rb") as given:
        done = subprocess.run(words, cwd=TOP, stdin=given, capture_output=True, text=True)
    lines = [words for _, _, words in rows(done.stdout)]
    assert (lines[0], lines[1].split(": the ring")[0], lines[7], done.returncode) == (
        "frame 17 doesn't fit: block 1 is retired, block 2 is opened",
        "frame 31 doesn't fit: block 2 is retired; block 1 is still the reader's",
        "frames 45 to 51 are dropped, 7 in all", 0,
    )


def test_rollover(here: Here) -> None:
    """Where member 0 has no room its packets go to member 1, and where none has they are dropped
    at home."""
    setup = here.text(
        "rolling.txt", BLOCK + "cpu many.pcap\ncpu many.pcap\nmembers 2\nmode cpu\nflag rollover\n"
    )
    here.text("rolling.sched", "feed 0\n" * 100 + "feed 1\n" * 100)
    printed = here.with_program("timeline.py", setup, "rolling.sched")[0]
    words = [(line.split(maxsplit=6) or [""])[-1] for line in printed.split("\n")]
    # Two blocks of each take 56; so frames 56 to 99 of CPU 0 go to member 1, which has room for 12
    # of CPU 1.
    moved = "frame 56 of CPU 0 to frame 99 of CPU 0 find no room and go to member 1, 44 in all"
    assert moved in words
    assert "frame 13 of CPU 1 to frame 99 of CPU 1 are dropped, 87 in all" in words


def made_setup(draw: random.Random) -> tuple[str, str]:
    """A setup of two CPUs and some group, and a schedule; of each kind something."""
    mode = draw.choice(["hash", "lb", "cpu", "qm", "rollover"])
    lines = [f"block_size {draw.choice([4096, 8192])}", f"block_nr {draw.choice([2, 3])}"]
    size, count = (int(line.split()[1]) for line in lines)
    lines += [
        "frame_size 2048", f"frame_nr {size // 2048 * count}", "cpu left.pcap", "cpu right.pcap 5",
        f"members {draw.randint(1, 3)}", f"mode {mode}", f"tov {draw.choice([0, 3, 20])}",
        f"priv {draw.choice([0, 13])}", f"key {KEY}",
        *draw.sample(["flag defrag", "filter odd.ddd"], draw.randint(0, 2))
    ]
    lines += ["flag rollover"] * (mode != "rollover" and draw.random() < 0.5)
    members, moment, steps = int(lines[6].split()[1]), 0, []
    for _ in range(260):
        moment += draw.randint(0, 2)
        member = draw.randrange(members)
        steps.append(
            draw.choice(
                [
                    *[f"feed {draw.randrange(2)}"] * 9, *[f"read {member}"] * draw.randint(0, 3),
                    f"tick {moment}", f"stats {member}"
                ]
            )
        )
    return "\n".join(lines) + "\n", "\n".join(steps) + "\n"


def test_as_the_program(here: Here) -> None:
    """Over runs of all modes and flags the steps have the counts that the program prints: else
    the tool ends with a sentence. The status and the sums of its table are compared besides."""
    draw = random.Random(7)
    # What has an odd number in its sixteenth byte passes.
    here.text("odd.ddd", "4\n48 0 0 15\n69 0 1 1\n6 0 0 300\n6 0 0 0\n")
    for name in ("left.pcap", "right.pcap"):
        frames = []
        for number in range(160):
            data = datagram(
                number // 2, 808 * (number % 2), number % 2 == 1,
                bytes(808 if number % 2 == 0 else draw.randrange(900))
            )
            frames.append(
                (1000 * number, draw.choice([frame(number, draw.randrange(13, 1500)), data, data]))
            )
        here.capture(name, frames)
    for number in range(12):
        setup, schedule = made_setup(draw)
        here.text("made.txt", setup)
        here.text("made.sched", schedule)
        printed, said, status = here.with_program("timeline.py", "made.txt", "made.sched", "--json")
        notes = rollover_note(read_setup(here.path / "made.txt"))
        assert (said.splitlines(), status) == (notes, 0), f"run {number}"
        lines = here.answer([here.program, "replay", "made.txt", "made.sched"])[0].split("\n")
        told = [
            [int(word) for word in line.split()[3::2]]
            for line in lines if line.startswith("member")
        ]
        members = json.loads(printed)["members"] if status == 0 else []
        assert [
            [one["kept"] + one["drops"], one["drops"], one["freezes"], one["blocks"]]
            for one in members
        ] == told, f"counts of run {number}"
