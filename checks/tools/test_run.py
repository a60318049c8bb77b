"""Compares tools/run.py with the program: lines and statuses are the program's, and the
sentences beside them say what is wrong.

What is wrong with each text and capture was made so here, and its sentence was written by hand.
"""
from __future__ import annotations

import gzip
import json
import os
import signal
import subprocess
import sys
import time
from pathlib import Path

import pytest


from ringtap_tools import refusals
import running
from second.capture_bytes import header, record
from second.hash_values import KEY
from ringtap_tools.memory import KEPT_HEAP, LARGE_PAGES, TOLD
from places import TOP
from tools.here import Answer, BLOCK, Here, frame

SETUP = BLOCK + "cpu one.pcap\n"
DONE = "ringtap: status 0: done; outputs are in {}\n"
SETUP_REFUSED = "ringtap: status 2: the setup is refused\n"


@pytest.fixture
def here(here: Here) -> Here:
    """Beside it a capture with a setup of its own."""
    here.capture("one.pcap", [(number, frame(number)) for number in range(100)])
    here.text("one.txt", "# \u00e9t\u00e9\n" + SETUP)
    return here


def run(here: Here, *words: object) -> Answer:
    """What run.py answers."""
    return here.with_program("run.py", *words)


def explained(
    here: Here, what: str, words: list[str], wanted: str, folder: Path | None = None
) -> None:
    """A run by the tool has the program's lines and status; the first line on standard error is
    the explanation."""
    printed, _, status = here.answer([here.program, *words], folder)
    given = run(here, *words, "--here")
    assert (given[0], given[2]) == (printed, status), f"{what}: as the program"
    assert given[1].split("\n")[0] == wanted, what


def test_files(here: Here) -> None:
    """Lines and statuses are the program's, and files land in a new folder."""
    lines, _, _ = here.answer([here.program, "replay", "one.txt", "none.sched"])
    kept = (here.path / "out.0.pcap").read_bytes()
    (here.path / "out.0.pcap").unlink()
    assert run(here, "replay", "one.txt", "none.sched") == (lines, DONE.format("run-1"), 0)
    assert sorted(path.name for path in (here.path / "run-1").iterdir()) == [
        "lines.txt", "out.0.pcap", "setup.txt"
    ]
    assert (here.path / "run-1" / "out.0.pcap").read_bytes() == kept
    assert (here.path / "run-1" / "lines.txt").read_text() == lines
    assert (here.path / "run-1" / "setup.txt").read_bytes() == (
        "# \u00e9t\u00e9\n" + SETUP + "out run-1/out\n"
    ).encode()
    assert not (here.path / "out.0.pcap").exists()
    assert run(here, "replay", "one.txt", "none.sched")[1] == DONE.format("run-2")
    assert run(here, "replay", "one.txt", "none.sched", "--into", "run-1") == (
        "", "run.py: run-1: is there already; outputs go into a new folder\n", 125
    )
    assert run(here, "replay", "one.txt", "none.sched", "--here") == (
        lines, "ringtap: status 0: done\n", 0
    )
    assert run(here, "check", "one.txt") == ("ok\n", "ringtap: status 0: done\n", 0)
    assert run(here)[1:] == (
        "usage: run.py [OPTION ..] COMMAND CONF [SCHED ..]\n"
        "run.py: the following arguments are required: COMMAND, CONF, SCHED; --help has all "
        "options\n",
        125
    )
    piped = subprocess.run(
        [
            "bash", "-c",
            f'{sys.executable} -B {TOP}/tools/run.py replay <(cat one.txt) <(cat none.sched) '
            '--into piped'
            f" --program {here.program}"
        ],
        cwd=here.path, capture_output=True, text=True
    )
    assert (piped.stdout, piped.stderr, piped.returncode) == (lines, DONE.format("piped"), 0)
    printed, said, _ = run(here, "replay", "one.txt", "none.sched", "--json", "--into", "object")
    made = json.loads(printed)
    assert (
        made["status"], made["folder"], "\n".join(made["lines"]) + "\n", made["report"]["drops"]
    ) == (0, "object", lines, 44)
    assert (said, made["refusal"]) == (DONE.format("object"), None)


def test_a_refusal_as_an_object(here: Here) -> None:
    """The object has the kind and the place, and standard error the sentence."""
    here.text("no.txt", BLOCK + "cpu many.pcap\nmode cluster_flow\n")
    printed, said, status = run(here, "replay", "no.txt", "none.sched", "--json")
    made = json.loads(printed)
    assert made["refusal"] == {"text": "setup", "line": 6, "kind": "unknown_word"}
    assert 'Suricata\'s cluster_flow is "mode hash"' in said and (made["status"], status) == (2, 2)


def test_clash(here: Here) -> None:
    """An output that is an input, by its name or by a link, is refused, and the input stays."""
    here.capture("in.0.pcap", [(0, frame(0))])
    before = (here.path / "in.0.pcap").read_bytes()
    setup = here.text("clash.txt", BLOCK + "cpu in.0.pcap\nout in\n")
    said = (
        "run.py: clash.txt: the output in.0.pcap would take the place of the input in.0.pcap: "
        "choose another `out`\n"
    )
    assert run(here, "replay", setup, "none.sched", "--here") == ("", said, 125)
    (here.path / "alias.0.pcap").symlink_to("in.0.pcap")
    setup = here.text("alias.txt", BLOCK + "cpu in.0.pcap\nout alias\n")
    said = (
        "run.py: alias.txt: the output alias.0.pcap would take the place of the input in.0.pcap: "
        "choose another `out`\n"
    )
    assert run(here, "replay", setup, "none.sched", "--here") == ("", said, 125)
    assert (here.path / "in.0.pcap").read_bytes() == before


def told(here: Here, given: str | None, name: str, *words: object) -> tuple[list[str], str]:
    """What the runs of a tool have in the word of the environment where the user has given it a
    value, and what the tool prints."""
    telling = here.path / "telling"
    telling.write_text(
        f'#!/bin/sh\necho "${TOLD}" >>{here.path}/told.txt\nexec {here.program} "$@"\n'
    )
    telling.chmod(0o755)
    (here.path / "told.txt").write_text("")
    environment = {word: value for word, value in os.environ.items() if word != TOLD} | (
        {} if given is None else {TOLD: given}
    )
    command = [sys.executable, "-B", TOP / "tools" / name, *words, "--program", telling]
    done, why = running.run(command, cwd=here.path, env=environment, text=True)
    return (
        sorted(set((here.path / "told.txt").read_text().splitlines())), done.stdout if done else why
    )


def test_memory(here: Here) -> None:
    """What the C library is told: for replays of 1 MiB and more whose rings have at most twice
    as many bytes to use large pages and to keep its heap, for captures on threads of frames of
    512 bytes and more to keep its heap, and what the user has told it in any case. Printed and
    saved is the same."""
    # of 528 bytes with their headers, so 1,056,024 with that of the file
    wide = [(number, frame(number, 512)) for number in range(2000)]
    here.capture("wide.pcap", wide)
    here.capture("less.pcap", wide[:1980])  # 1,045,464 bytes
    here.capture("thin.pcap", [(number, frame(number, 511)) for number in range(2000)])
    for name in ("wide", "less", "thin"):
        here.text(f"{name}.txt", BLOCK + f"cpu {name}.pcap\n")
    ring = (
        "block_size 65536\nframe_size 2048\nblock_nr {}\nframe_nr {}\ncpu wide.pcap\nmembers "
        "{}\nmode lb\n"
    )
    # 2,097,152 bytes, and 2,112,048 are twice those of the capture
    here.text("enough.txt", ring.format(16, 512, 2))
    here.text("too_large.txt", ring.format(17, 544, 2))
    here.text("gone.txt", BLOCK + "cpu gone.pcap\n")
    here.text("pair.txt", BLOCK + "cpu less.pcap\ncpu less.pcap\n")
    both = f"{LARGE_PAGES}:{KEPT_HEAP}"
    rows = [
        ("replay", "wide", both), ("replay2", "wide", both), ("replay", "less", ""),
        ("replay", "pair", both), ("replay", "thin", both), ("replay", "enough", both),
        ("replay", "too_large", ""), ("replay", "gone", ""), ("capture", "wide", KEPT_HEAP),
        ("forward", "wide", KEPT_HEAP), ("capture", "thin", ""), ("capture", "less", ""),
        ("send", "wide", ""), ("check", "wide", "")
    ]
    for command, name, wanted in rows:
        words = [command, f"{name}.txt", *["none.sched"] * command.startswith("replay"), "--here"]
        assert told(
            here, None, "run.py", *words
        )[0] == [wanted], f"{command} {name}: what the C library is told"
    for given in ("", "glibc.malloc.hugetlb=0"):
        assert told(
            here, given, "run.py", "replay", "wide.txt", "none.sched", "--here"
        )[0] == [given], f"by the user: {given!r}"
    alone, kept = told(here, "", "run.py", "replay", "enough.txt", "none.sched", "--here")[1], (
        here.path / "out.0.pcap"
    ).read_bytes()
    assert told(here, None, "run.py", "replay", "enough.txt", "none.sched", "--here")[1] == alone
    assert (here.path / "out.0.pcap").read_bytes() == kept
    # Of the runs of ring_size.py the first one is over rings that keep all, which are too large
    # to gain by large pages.
    for name, wanted in (("wide", ["", both]), ("less", [""])):
        words = ["ring_size.py", f"{name}.txt", "--block-nr", "2", "--phases", "2"]
        given, printed = told(here, None, *words)
        assert (given, printed) == (wanted, told(here, "", *words)[1]), f"ring_size.py {name}"


# Lines after SETUP, the line that is wrong, and what is said of it.
LINES = [
    (
        "mode cluster_flow",
        'line 6: "mode cluster_flow": no such mode; Suricata\'s cluster_flow is "mode hash"'
    ),
    (
        "mode AF_Packet::FANOUT_HASH",
        'line 6: "mode AF_Packet::FANOUT_HASH": no such mode; Zeek\'s AF_Packet::FANOUT_HASH is '
        '"mode hash"'
    ),
    ("mode Hash", 'line 6: "mode Hash": no such mode; "mode hash" is meant?'),
    (
        "mode ebpf",
        'line 6: "mode ebpf": a mode that ringtap has not; there are hash, lb, cpu, rollover or qm'
    ),
    ("mode hash", f'line 6: "mode hash": needs a line "key", as "key {KEY}"'),
    ("block-timeout 10", 'line 6: "block-timeout 10": no such line; here it is "tov"'),
    ("tmo:10", 'line 6: "tmo:10": no such line; here it is "tov"'),
    ("Tov 8", 'line 6: "Tov 8": no such line; "tov" is meant?'),
    (
        "feed 0",
        'line 6: "feed 0": a line of a schedule, and this is the setup: CONF comes before SCHED'
    ),
    ("tov 8 # eight", 'line 6: "tov 8 # eight": a comment needs a line of its own'),
    (
        "cpu my own.pcap file",
        'line 6: "cpu my own.pcap file": "cpu" takes the name of a capture, and a receive queue, 0 '
        'to 65535, or nothing; '
        "a name has no space, so give the file another name or a link"
    ),
    (
        "out \u00e9",
        'line 6: "out \u00e9": column 5 has "\u00e9", and a line has printable ASCII alone'
    ),
    ("tov 60001", 'line 6: "tov 60001": "tov" takes 0 to 60000 milliseconds'),
    (
        "features 0x1",
        'line 6: "features 0x1": 0x1 is no number here, which is decimal and without a unit: '
        '"features 1"'
    ),
    (
        "priv 1K",
        'line 6: "priv 1K": 1K is no number here, which is decimal and without a unit: "priv 1024"'
    ),
    (
        "mac 02:00:00:00:00:01",
        'line 6: "mac 02:00:00:00:00:01": an address has 12 hexadecimal digits without colons: '
        '"mac 020000000001"'
    ),
    ("tov 8\ntov 9", 'line 7: "tov 9": line 6 has it already, "tov 8": remove one of the two'),
    (
        "flag defrag\nflag defrag",
        'line 7: "flag defrag": line 6 has it already, "flag defrag": remove one of the two'
    ),
    ("out a\nout b", 'line 7: "out b": line 6 has it already, "out a": remove one of the two'),
    ("members 9", 'line 6: "members 9": a group has 1 to 8 members'),
    (
        "flag rollover\nmode rollover",
        'line 7: "mode rollover": tries the other members by itself: remove the line "flag '
        'rollover"'
    ),
    ("features 2", 'line 6: "features 2": there is bit 0 alone, so 0 or 1'),
]
# Rings: block_size, block_nr, frame_size, frame_nr, and what is said of them.
RINGS = [
    (
        (5000, 2, 2048, 4),
        'line 1: "block_size 5000": a block has a multiple of 4096 bytes, 4096 to 1048576: '
        '"block_size 4096" or "block_size 8192"'
    ),
    (
        (4096, 300, 2048, 600),
        'line 2: "block_nr 300": a ring of blocks of 4096 bytes has 2 to 256 of them'
    ),
    (
        (1048576, 65, 2048, 33280),
        'line 2: "block_nr 65": a ring of blocks of 1048576 bytes has 2 to 64 of them'
    ),
    (
        (4096, 2, 100, 80),
        'line 3: "frame_size 100": a frame has a multiple of 16 bytes: "frame_size 96" or '
        '"frame_size 112"'
    ),
    # A block of 64 KiB has 21 frames of 3072 bytes, and 1024 bytes more; five have 105.
    (
        (65536, 5, 3072, 100),
        'line 4: "frame_nr 100": 21 frames of 3072 bytes go into each of 5 blocks of 65536: '
        '"frame_nr 105"'
    ),
    (
        (4096, 2, 8192, 0),
        'line 3: "frame_size 8192": no frame of 8192 bytes goes into a block of 4096'
    ),
]


def test_setups(here: Here) -> None:
    for lines, wanted in LINES:
        here.text("bad.txt", SETUP + lines + "\n")
        explained(
            here, f"setup: {lines}", ["replay", "bad.txt", "none.sched"], f"bad.txt, {wanted}"
        )
        given = run(here, "replay", "bad.txt", "none.sched", "--into", "refused")
        assert (given[1], given[2], (here.path / "refused").exists()) == (
            f"bad.txt, {wanted}\n{SETUP_REFUSED}", 2, False
        ), f"into a folder: {lines}"
    for numbers, wanted in RINGS:
        here.text(
            "bad.txt",
            "".join(
                f"{word} {number}\n" for word,
                number in zip(["block_size", "block_nr", "frame_size", "frame_nr"], numbers)
            ) + "cpu a\n"
        )
        explained(here, f"ring: {numbers}", ["check", "bad.txt"], f"bad.txt, {wanted}")
    here.text("bad.txt", "block_size 65536\nblock_nr 5\nframe_size 3072\ncpu a\n")
    explained(
        here, "a missing line", ["check", "bad.txt"],
        'bad.txt: has no line "frame_nr"; with its other lines it is "frame_nr 105"'
    )
    here.text("bad.txt", SETUP + "tov 8\nfeatures 1\n")
    explained(
        here, "a transmit ring", ["send", "bad.txt"],
        'bad.txt, line 6: "tov 8": a ring of send has none, and no "features": leave it out, or '
        'write 0'
    )
    here.text("bad.txt", SETUP + "#" * 1_048_577)
    explained(
        here, "a large setup", ["check", "bad.txt"],
        "bad.txt: has more than 1,048,576 bytes, and a text has no more"
    )


def test_every_word(here: Here) -> None:
    """Each word that the program prints of a refusal has its row in the reference, which is said
    where no better sentence is known."""
    for kind in (
        "bad_jump", "bad_constant", "bad_memory", "no_return", "bad_code", "too_large",
        "request private", "group too_many", "missing cpu"
    ):
        told = refusals.from_table(refusals.Refusal("filter", 2, kind))
        assert told != kind and ";" in told, f"a row for {kind}"


# Schedules of a setup with one CPU and three members, and what is said.
SCHEDULES = [
    ("feed 0\nfeed 1\n", 'line 2: "feed 1": three.txt has one CPU, which is 0'),
    ("read 3\n", 'line 1: "read 3": three.txt has 3 members, 0 to 2'),
    (
        "tick 5\nfeed 0\ntick 4\n",
        'line 3: "tick 4": line 1 has "tick 5", which is later: moments count from the begin, and '
        'none falls'
    ),
    ("Feed 0\n", 'line 1: "Feed 0": no such line; "feed" is meant?'),
    ("feed 0 0\n", 'line 1: "feed 0 0": "feed" takes a CPU; here are 2 values'),
    ("feed x\n", 'line 1: "feed x": x is no number: decimal digits, at most 4294967295'),
    (
        BLOCK,
        'line 1: "block_size 4096": a line of a setup, and this is the schedule: CONF comes before '
        'SCHED'
    ),
]
FILTERS = [
    ("(000) ldh [12]\n", "line 1: \"(000) ldh [12]\": this is of `tcpdump -d`; {}"),
    (
        "{ 0x28, 0, 0, 0x0000000c },\n",
        'line 1: "{{ 0x28, 0, 0, 0x0000000c }},": this is of `tcpdump -dd`; {}'
    ),
    (
        "tcp port 80\n",
        'line 1: "tcp port 80": a filter begins with the number of its instructions; {}'
    ),
    ("", "line 1: nothing stands there; {}"),
    ("3\n6 0 0 1\n", 'line 1: "3": 1 instructions follow; {}'),
]


def test_texts(here: Here) -> None:
    setup = here.text("three.txt", SETUP + "members 3\n")
    for lines, wanted in SCHEDULES:
        here.text("bad.sched", lines)
        explained(
            here, f"schedule: {lines}", ["replay", setup, "bad.sched"], f"bad.sched, {wanted}"
        )
    here.text("filtered.txt", SETUP + "filter f.ddd\n")
    advice = "`tcpdump -y EN10MB -ddd EXPRESSION >f.ddd` writes what is read here"
    for lines, wanted in FILTERS:
        here.text("f.ddd", lines)
        explained(
            here, f"filter: {lines}", ["check", "filtered.txt"], f"f.ddd, {wanted.format(advice)}"
        )
    # What `tcpdump -y LINUX_SLL -ddd ip` and `tcpdump -y EN10MB -ddd vlan` write.
    here.text("f.ddd", "4\n40 0 0 14\n21 0 1 2048\n6 0 0 262144\n6 0 0 0\n")
    explained(
        here, "all filtered", ["replay", "filtered.txt", "none.sched"],
        "f.ddd: every arrival was filtered: it reads its first bytes where a frame of "
        "link type LINUX_SLL has them; for Ethernet: `tcpdump -y EN10MB -ddd EXPRESSION >f.ddd`"
    )
    here.text(
        "f.ddd", "6\n40 0 0 12\n21 2 0 33024\n21 1 0 34984\n21 0 1 37120\n6 0 0 262144\n6 0 0 0\n"
    )
    explained(
        here, "a tag", ["replay", "filtered.txt", "none.sched"],
        "f.ddd: every arrival was filtered: a VLAN tag is taken out before the filter sees a "
        "frame; `tcpdump -r CAPTURE -w NEW.pcap vlan` chooses by it before"
    )
    here.text("ticked.txt", SETUP + "ticks t.txt\n")
    for lines, wanted in [
        (
            "1\ntick 5\n",
            'line 2: "tick 5": a moment stands alone: "5"; `tick` is a word of schedules'
        ),
        (
            "5\n4\n",
            'line 2: "4": line 1 has "5", which is later: moments count from the begin, and none '
            'falls'
        )
    ]:
        here.text("t.txt", lines)
        explained(here, f"moments: {lines}", ["capture", "ticked.txt"], f"t.txt, {wanted}")


def test_words(here: Here) -> None:
    cases = [
        (
            ["replay", "one.txt"],
            '"replay one.txt": replay needs CONF and SCHED; /dev/null is a schedule without a line'
        ),
        (["repaly", "one.txt", "none.sched"], '"repaly": no such command; "replay" is meant?'),
        (
            ["capture", "one.txt", "none.sched"],
            '"capture one.txt none.sched": capture takes CONF alone, and no name is empty'
        ),
    ]
    for words, wanted in cases:
        explained(here, " ".join(words), words, wanted)


# The bytes of a file, and what it is said to be; {} is its name.
CAPTURES = [
    (
        gzip.compress(header()),
        "{} is gzip, and ringtap reads pcap and pcapng: `gzip -dc {} >a.pcap`"
    ),
    (
        b"\x28\xb5\x2f\xfd" + bytes(60),
        "{} is zstd, and ringtap reads pcap and pcapng: `zstd -dc {} >a.pcap`"
    ),
    (
        b"snoop\0\0\0" + bytes(60),
        "{} is snoop, and ringtap reads pcap and pcapng: `editcap -F pcap {} a.pcap.new.pcap`"
    ),
    (
        "14:00:00 IP 10.0.0.1.80 > 10.0.0.2.1024: tcp 0, \u00e9\n".encode(),
        "{} is a text, and ringtap reads pcap and pcapng"
    ),
    (
        b"\x01\x02\x03\x04" * 20,
        "{} is of a kind that isn't known here, and ringtap reads pcap and pcapng"
    ),
    (
        bytes(100),
        "{} is nothing but zeros at its begin: a file whose disk was full, or that was never "
        "written, and ringtap reads pcap and pcapng"
    ),
    (
        header(link=127),
        "{} has link type 127 (802.11 radiotap), and ringtap reads Ethernet, which is 1: capture "
        "on one Ethernet device"
    ),
    (
        header(link=113),
        "{} has link type 113 (Linux cooked, as of `tcpdump -i any`), and ringtap reads Ethernet, "
        "which is 1: capture on one Ethernet device"
    ),
    (
        header(version=(2, 3)),
        "{} is of version 2.3, and ringtap reads 2.4: `tcpdump -r {} -w NEW.pcap` writes 2.4"
    ),
    (b"", "{} is empty"),
    (header()[:20], "{} has 20 bytes, and the header of a capture has more"),
    # A record of 60 bytes, of which 43 are there.
    (
        header() + record(bytes(43), fraction=0, captured=60, original=60),
        "{} ends within the record at byte 24, of which 17 bytes aren't there; what precedes it "
        "was run"
    ),
    (header() + record(bytes(99), fraction=0, captured=300_000, original=300_000),
     "{} has a record at byte 24 that says 300,000 bytes, of at most 262,144; what precedes it "
     "was run"),
]


def test_captures(here: Here) -> None:
    here.text("refused.txt", BLOCK + "cpu one.pcap\ncpu a.pcap.gz\n")
    for data, wanted in CAPTURES:
        here.saved("a.pcap.gz", data)
        explained(
            here, f"capture: {data[:20]!r}", ["replay", "refused.txt", "none.sched"],
            f"refused.txt, line 6: {wanted.replace('{}', 'a.pcap.gz')}"
        )
    # 24 bytes and 128 times 262,160
    here.saved("a.pcap.gz", header() + 128 * record(bytes(262_144), fraction=0))
    explained(
        here, "a large capture", ["replay", "refused.txt", "none.sched"],
        "refused.txt, line 6: a.pcap.gz has 33,556,504 bytes, of which the first "
        "33,554,432 were run: `tcpdump -r a.pcap.gz -C 33 -w part.pcap` makes parts of it"
    )
    here.text("runts.txt", BLOCK + "cpu runts.pcap\n")
    here.capture("runts.pcap", [(0, bytes(13))] * 3)
    explained(
        here, "runts", ["replay", "runts.txt", "none.sched"],
        "runts.txt: of 3 frames none arrived: each has fewer than 14 bytes, or is a fragment whose "
        "others aren't there"
    )


def test_faults(here: Here) -> None:
    """Files that can't be read or written, with the system's reason."""
    gone = "No such file or directory"
    (here.path / "run-1").mkdir()
    here.text("gone.txt", BLOCK + "cpu one.pcap\ncpu gone.pcap\ncpu run-1\n")
    explained(
        here, "no capture", ["replay", "gone.txt", "none.sched"],
        f"gone.txt, line 6: gone.pcap: {gone}"
    )
    assert run(here, "replay", "gone.txt", "none.sched", "--here")[1].split("\n")[1] == (
        "gone.txt, line 7: run-1: Is a directory"
    )
    explained(here, "no setup", ["replay", "no.txt", "none.sched"], f"no.txt: {gone}")
    explained(here, "no schedule", ["replay", "one.txt", "no.sched"], f"no.sched: {gone}")
    here.text("nofilter.txt", SETUP + "filter no.ddd\n")
    explained(
        here, "no filter", ["replay", "nofilter.txt", "none.sched"],
        f"nofilter.txt, line 6: no.ddd: {gone}"
    )
    here.text("noplace.txt", SETUP + "out nowhere/a\n")
    explained(
        here, "no folder", ["replay", "noplace.txt", "none.sched"],
        "nowhere/a.0.pcap: there is no folder nowhere"
    )
    here.text("taken.txt", SETUP + "out taken\n")
    (here.path / "taken.0.pcap").mkdir()
    explained(
        here, "a folder in its place", ["replay", "taken.txt", "none.sched"],
        "taken.0.pcap: Is a directory"
    )
    words = [
        sys.executable, "-B", str(TOP / "tools/run.py"), "replay", "one.txt", "none.sched",
        "--here", "--program", str(here.program)
    ]
    with open("/dev/full", "w") as full:
        alone = subprocess.run(
            [here.program, "replay", "one.txt", "none.sched"], cwd=here.path, stdout=full
        ).returncode
        done = subprocess.run(words, cwd=here.path, stdout=full, stderr=subprocess.PIPE, text=True)
    assert (done.returncode, done.stderr.split("\n")[0]) == (
        alone, "standard output: nobody takes the lines"
    )


def test_signals(here: Here) -> None:
    """A run that is stopped is said to be, and the tool's own folders go when it is told to end."""
    slow = here.path / "slow"
    slow.write_text("#!/bin/sh\nexec sleep 60\n")
    slow.chmod(0o755)
    (here.path / "temporary").mkdir()
    words = [
        sys.executable, "-B", str(TOP / "tools/run.py"), "replay", "one.txt", "none.sched",
        "--into", "slow-run", "--program", str(slow)
    ]
    process = subprocess.Popen(
        words, cwd=here.path, stderr=subprocess.PIPE,
        env={**os.environ, "TMPDIR": str(here.path / "temporary")}
    )
    for _ in range(200):
        if (here.path / "slow-run").exists():
            break
        time.sleep(0.05)
    time.sleep(0.2)
    process.send_signal(signal.SIGTERM)
    process.communicate()
    left = [path.name for path in (here.path / "temporary").iterdir()]
    assert (process.returncode, left, (here.path / "slow-run").exists()) == (143, [], False)
    slow.write_text("#!/bin/sh\nkill -9 $$\n")
    done = subprocess.run(words, cwd=here.path, capture_output=True, text=True)
    assert (done.returncode, done.stderr) == (137, "ringtap: status -9: stopped by signal 9\n")
