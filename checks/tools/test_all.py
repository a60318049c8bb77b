"""Runs the tools of tools/ with a program, in a folder, and compares what they print and write.

Sums stand beside the tests: a frame of 60 bytes takes 144 bytes of a block, of which one of 4096
bytes has 4048 for packets, so 28 frames.
"""
from __future__ import annotations

import gzip
import json
import os
import re
import subprocess
import sys
import time
from pathlib import Path

import pytest

from second.capture_bytes import header
from second.hash_values import KEY
from places import RINGSIZE, TOP
from tools.here import BLOCK, Here, frame, refused

TOOLS = sorted(
    path.name
    for path in (TOP / "tools").glob("*.py")
    if "    run_main(main" in path.read_text(encoding="utf-8")
)


def test_help(here: Here) -> None:
    """Help within 80 columns with an example, a version, and one line of usage before what is
    wrong with the words."""
    for name in TOOLS:
        printed, said, status = here.tool(name, "--help")
        assert (status, said, printed.startswith("usage: ")) == (0, "", True), f"{name} --help"
        assert [
            line
            for line in printed.split("\n") if len(line) > 79
        ] == [], f"{name} --help: wide lines"
        assert "  --json " in printed, f"{name} --help: JSON"
        assert f"\nexample:\n  {name} " in printed, f"{name} --help: an example"
        assert re.fullmatch(
            rf"{name} \(ringtap\) [0-9.]+\n", here.tool(name, "--version")[0]
        ) is not None, f"{name} --version"
        said, status = here.tool(name, "--no-such-option")[1:]
        assert (said.count("\n"), said.startswith(f"usage: {name} "), status) == (
            2, True, 125 if name == "run.py" else 2
        ), f"{name}: wrong words"


def test_endings(here: Here) -> None:
    """A disk that is full is a sentence, and a tool that is told to end leaves nothing."""
    here.capture("few.pcap", [(number, frame(number)) for number in range(100)])
    here.text("few.txt", BLOCK + "cpu few.pcap\n")
    for words in (
        ["schedule.py", "few.txt"], ["blocks.py", TOP / "demo/expected/group/group.0.blk"],
        ["schedule.py", "few.txt", "-o", "/dev/full"]
    ):
        name, *rest = map(str, words)
        script = f"{sys.executable} -B {TOP}/tools/{name} {' '.join(rest)} >/dev/full"
        _, said, status = here.answer(["bash", "-c", script])
        what = "/dev/full: can't be written" if "-o" in rest else "standard output"
        assert (said, status) == (
            f"{name}: {what}: No space left on device\n", 1
        ), f"{name}, a full disk"
    slow = here.path / "slow"
    slow.write_text("#!/bin/sh\ntouch started\nexec sleep 60\n")
    slow.chmod(0o755)
    (here.path / "temporary").mkdir()
    environment = {**os.environ, "TMPDIR": str(here.path / "temporary")}
    for name, rest in (
        ("lost.py", ["/dev/null"]), ("timeline.py", ["/dev/null"]),
        ("ring_size.py", ["--block-nr", "2"])
    ):
        words = [
            sys.executable, "-B", str(TOP / "tools" / name), "few.txt", *rest, "--program",
            str(slow)
        ]
        process = subprocess.Popen(
            words, cwd=here.path, stdout=subprocess.PIPE, stderr=subprocess.PIPE, env=environment
        )
        folders = []
        for _ in range(400):
            folders = [path for path in (here.path / "temporary").glob("ringtap-*/started")]
            if folders:
                break
            time.sleep(0.05)
        assert len(folders) == 1, f"{name} has begun"
        process.terminate()
        process.communicate()
        assert (
            process.returncode, list((here.path / "temporary").iterdir())
        ) == (143, []), f"{name} after SIGTERM"


def test_bytes(here: Here) -> None:
    """1M bytes a second are 256 blocks of 4096, so one each 3.90625 ms, of which 10 ms have two."""
    here.capture("apart.pcap", [(0, frame(0)), (10_000, frame(1))])
    here.text("apart.txt", BLOCK + "cpu apart.pcap\n")
    made = json.loads(
        here.tool(
            "schedule.py", "apart.txt", "--bytes", "1M", "--tick", "0", "--json", "-o",
            "apart.sched"
        )[0]
    )
    plain = json.loads(
        here.tool("schedule.py", "apart.txt", "--bytes", "1048576", "--tick", "0", "--json")[0]
    )
    assert (made["feeds"], made["output"], plain["schedule"]) == (
        2, "apart.sched", (here.path / "apart.sched").read_text()
    )
    assert "'1X' is no number, as 250, 64K or 1M" in here.tool(
        "schedule.py", "apart.txt", "--bytes", "1X"
    )[1]


def test_schedule(here: Here) -> None:
    """Three frames of CPU 0 and two of CPU 1, in milliseconds: 0, 10, 20 and 5, 10. The time-out
    is 8 ms."""
    here.capture("a.pcap", [(0, frame(0)), (10_000, frame(1)), (20_000, frame(2))])
    here.capture("b.pcap", [(5_000, frame(3)), (10_000, frame(4))])
    setup = here.text("two.txt", BLOCK + "cpu a.pcap\ncpu b.pcap\n")
    lines = {
        "no reader": ([], "feed 0,feed 1,tick 8,feed 0,feed 1,tick 16,feed 0"),
        "100 blocks a second": (
            ["--blocks", "100"], "feed 0,feed 1,tick 8,feed 0,feed 1,read 0,tick 16,feed 0,read 0"
        ),
        # A block of 4096 bytes is read each 10 ms.
        "409600 bytes a second": (
            ["--bytes", "409600", "--tick", "0"], "feed 0,feed 1,feed 0,feed 1,read 0,feed 0,read 0"
        ),
        "a pause of 15 ms": (
            ["--pause", "15", "--tick", "0"], "feed 0,feed 1,feed 0,feed 1,read 0,read 0,feed 0"
        ),
        "a stall": (
            ["--blocks", "100", "--tick", "0", "--stall", "5:6"],
            "feed 0,feed 1,feed 0,feed 1,feed 0,read 0"
        ),
        "twice as fast": (["--speed", "2"], "feed 0,feed 1,feed 0,feed 1,tick 8,feed 0"),
        "half as fast": (
            ["--speed", "0.5", "--tick", "15"], "feed 0,feed 1,tick 15,feed 0,feed 1,tick 30,feed 0"
        ),
        "statistics": (
            ["--tick", "0", "--stats", "0.01"], "feed 0,feed 1,feed 0,feed 1,stats 0,feed 0,stats 0"
        ),
    }
    for what, (words, wanted) in lines.items():
        printed, said, status = here.tool("schedule.py", setup, *words)
        assert (
            printed.replace("\n", ",").rstrip(","), said, status
        ) == (wanted, "", 0), f"schedule, {what}"
    members = here.text("members.txt", BLOCK + "members 2\nmode lb\ntov 20\ncpu a.pcap\n")
    printed, _, _ = here.tool("schedule.py", members, "--blocks", "100", "--stats", "0.02")
    assert printed.split("\n") == (
        "feed 0;feed 0;read 0;read 1;tick 20;feed 0;read 0;read 1;stats 0;stats 1;".split(";")
    )
    assert here.tool("schedule.py", setup, "-o", "made.sched") == ("", "", 0)
    printed, said, status = here.answer([here.program, "replay", setup, "made.sched"])
    # Tick 8 retires the block of the first two frames and tick 16 that of the next two; nobody
    # reads, so the last one is dropped.
    assert (printed.split("\n")[-2:], said, status) == (
        ["total arrivals 5 filtered 0 kept 4 drops 1", ""], "", 0
    )


def test_old_frames(here: Here) -> None:
    """A frame that is older than the one before it comes right after that one, and the order of
    a CPU stays."""
    here.capture("old.pcap", [(10_000, frame(0)), (5_000, frame(1)), (20_000, frame(2))])
    here.capture("new.pcap", [(12_000, frame(3))])
    setup = here.text("old.txt", BLOCK + "cpu old.pcap\ncpu new.pcap\n")
    printed, _, _ = here.tool("schedule.py", setup, "--tick", "0")
    assert printed == "feed 0\nfeed 0\nfeed 1\nfeed 0\n"


def test_sentences(here: Here) -> None:
    """What is wrong with an input is said with its file and its place."""
    here.capture("a.pcap", [(0, frame(0))])
    here.saved("next.pcap", b"\x0a\x0d\x0d\x0a" + bytes(40))
    here.saved("link.pcap", header(link=113))
    here.saved("short.pcap", bytes(10))
    here.saved("none.pcap", bytes(24))
    sentences = {
        "cpu next.pcap": (
            "next.pcap is pcapng whose section has no byte-order magic, "
            "and ringtap reads pcap and pcapng"
        ),
        "cpu link.pcap": (
            "link.pcap has link type 113 (Linux cooked, as of `tcpdump -i any`), "
            "and ringtap reads Ethernet, which is 1: capture on one Ethernet device"
        ),
        "cpu short.pcap": "short.pcap has 10 bytes, and the header of a capture has more",
        "cpu none.pcap": (
            "none.pcap is nothing but zeros at its begin: a file whose disk was full, "
            "or that was never written, and ringtap reads pcap and pcapng"
        ),
        "cpu absent.pcap": (
            f"bad.txt, line 5: absent.pcap isn't there: names count from the folder {here.path}"
        ),
        "cpu": (
            "bad.txt, line 5: `cpu` needs the name of a capture, and the number of a queue or "
            "nothing"
        ),
        "cpu a.pcap x": (
            "bad.txt, line 5: `cpu` needs the name of a capture, and the number of a queue or "
            "nothing"
        ),
        "cpu a.pcap\ntov 1 2": "bad.txt, line 6: `tov` needs one number",
        "tov 5": "bad.txt: has no line `cpu`",
    }
    for line, wanted in sentences.items():
        here.text("bad.txt", f"{BLOCK}{line}\n")
        assert here.tool("schedule.py", "bad.txt") == refused("schedule.py", wanted), line
    assert here.tool("schedule.py", "no.txt") == refused(
        "schedule.py", "no.txt: can't be read: No such file or directory"
    )
    assert here.tool("lost.py", "many.txt", "--program", "gone") == refused(
        "lost.py", f"{here.path}/gone: isn't a program"
    )
    here.text("bad.txt", BLOCK + "cpu many.pcap\nblok 3\n")
    said = here.with_program("ring_size.py", "bad.txt").said
    assert said.startswith('ring_size.py: bad.txt, line 6: "blok 3": no such line; ')
    assert said.endswith(" (setup line 6: unknown_word)\n")
    here.text("bad.txt", BLOCK + "cpu many.pcap\nfilter bad.ddd\n")
    here.text("bad.ddd", "1\n6 0 0 x\n")
    said = here.with_program("ring_size.py", "bad.txt").said
    assert said.startswith('ring_size.py: bad.ddd, line 2: "6 0 0 x": ')
    assert said.endswith(" (filter line 2: bad_line)\n")
    here.text("bad.sched", "feed 0\nfeed 7\n")
    assert here.with_program("lost.py", "many.txt", "bad.sched").said == (
        'lost.py: bad.sched, line 2: "feed 7": many.txt has one CPU, which is 0 '
        "(schedule line 2: no_such_cpu)\n"
    )
    assert here.with_program("ring_size.py", "many.txt", "--mode", "hash")[1] == (
        f'ring_size.py: many.txt: has no line "key", and mode hash needs one, as "key {KEY}"\n'
    )
    assert here.with_program("ring_size.py", "many.txt", "--block-size", "5000")[2] == 2
    here.capture("long.pcap", [(number, frame(number, 14)) for number in range(160_000)])
    here.text("long.txt", BLOCK + "cpu long.pcap\n")
    assert "has more than 1,048,576 bytes at" in here.tool("schedule.py", "long.txt")[1]


def test_documents(here: Here) -> None:
    assert here.tool("make_man.py", "--check") == ("", "", 0)


def examples(document: Path) -> list[tuple[list[str], str]]:
    """The commands of a document, each with the lines that stand below it up to the next command
    or the end of the indented lines."""
    found: list[tuple[list[str], list[str]]] = []
    lines: list[str] | None = None
    for line in document.read_text().split("\n"):
        if line.startswith("    $ "):
            lines = []
            found.append((line[6:].split(), lines))
        elif line.startswith("    ") and lines is not None:
            lines.append(line[4:])
        elif line.strip():
            lines = None
        elif lines is not None:
            lines.append("")
    return [(words, "\n".join(lines).rstrip("\n")) for words, lines in found]


def test_examples(here: Here, monkeypatch: pytest.MonkeyPatch) -> None:
    """The commands of docs/tools.md print what is shown below them; of a schedule, a timeline
    and a dump the first lines."""
    for name in ("demo", "checks", "examples"):
        (here.path / name).symlink_to(TOP / name)
    monkeypatch.setenv("RINGSIZE", str(RINGSIZE))
    ours = (TOP / "demo" / "lo.pcap").read_bytes()
    here.saved("in.0.pcap", ours)
    here.saved("lo.pcap.gz", gzip.compress(ours))
    here.text("clash.txt", BLOCK + "cpu in.0.pcap\nout in\n")
    here.text("cluster.txt", BLOCK + "cpu in.0.pcap\nmode cluster_flow\n")
    here.text("packed.txt", BLOCK + "cpu lo.pcap.gz\n")
    for shown, wanted in examples(TOP / "docs" / "tools.md"):
        what, words = " ".join(shown), list[str | Path](shown)
        if shown[0] == "python3":
            has_program = shown[1] in (
                "tools/ring_size.py", "tools/long.py", "tools/lost.py", "tools/timeline.py",
                "tools/run.py",
            )
            words = [
                sys.executable, "-B", TOP / shown[1], *shown[2:],
                *["--program", here.program] * has_program
            ]
        printed, said, status = here.answer(words)
        said = re.sub(r"ringsize: .*about .* s\n", "", said)  # by the machine's speed
        given = (printed + said).rstrip("\n") if isinstance(status, int) else status
        if any(tool in what for tool in ("schedule.py", "timeline.py", "blocks.py")):
            given = "\n".join(given.split("\n")[: wanted.count("\n") + 1])
        assert given == wanted, what
    assert len(examples(TOP / "docs" / "tools.md")) >= 8
