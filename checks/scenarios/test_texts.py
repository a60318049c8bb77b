"""What is wrong with a file of scenarios is said with its line, in one sentence, by the reader of
these checks; and what differs is shown with the numbers of the lines that say what is expected."""
from __future__ import annotations

import re
import subprocess
import sys
from pathlib import Path

import pytest

from places import TOP
from scenarios.changes import runner
from scenarios.fields import ADDRESS, FIELDS
from scenarios.forms import WORDS
from scenarios.spelling import is_near
from scenarios.texts import SETUP_WORDS, Document, Mistake

GOOD = """# A comment above the first scenario.
base
  base
  # and one inside
  run     replay conf sched
  conf    block_size 4096 | block_nr 2 | frame_size 2048 | frame_nr 4 | cpu a.pcap

# One right above a name.
a full ring
  like    base
  pcap    a.pcap 1514x7
  > cpu 0 frames 7 arrivals 7 end ok | member 0 packets 7 drops 3 freezes 1 blocks 2
  > total arrivals 7 filtered 0 kept 4 drops 3
  cpu     0 k0.k0.k0.k0.d0.d0.d0.
  member  0 kknkddd. kept 0-3 blocks 1:3248x2
  fields  out.0.blk 0 block num_pkts 2 blk_len 3248
  fields  out.0.blk 48 packet tp_snaplen 1514 sll_halen 6
# One at the end.
"""
STEPS = """
two steps
  like a full ring

three steps
  like two steps
"""


def later(line: str) -> str:
    """A line after the last one that is compared."""
    return f"sll_halen 6\n{line}"


# A slip, as what is written in place of what, and the line and the sentence that say it.
SLIPS = {
    "an unknown word": (
        "  pcap ", "  pacp ", 11, '"pacp" is no word of a scenario; "pcap" is meant?'
    ),
    "a word that nothing is near": (
        "  pcap ", "  captures ", 11, '"captures" is no word of a scenario'
    ),
    "a name that isn't there": (
        "like    base", "like    bose", 10, 'there is no scenario "bose"; "base" is meant?'
    ),
    "a name that stands twice": (
        "a full ring\n", "base\n", 9, 'the name "base" stands at line 2 already'
    ),
    "too many steps": (
        "# One at the end.\n", STEPS, 23,
        '"three steps" is like "two steps" in three steps, and two are allowed'
    ),
    "a base that isn't there": (
        "  base\n  # and", "  like bse\n  # and", 3, 'there is no scenario "bse"; "base" is meant?'
    ),
    "a name that is like itself": (
        "like    base", "like    a full ring", 10,
        '"a full ring" is like "a full ring" in three steps, and two are allowed'
    ),
    "a name that begins with a blank": (
        "a full ring\n", " a full ring\n", 9,
        "a scenario begins with its name, without a blank before it"
    ),
    "a tab": ("like    base", "like\tbase", 10, "the byte 9 is no printable ASCII"),
    "a letter that isn't ASCII": (
        "a full ring\n", "a füll ring\n", 9, "the byte 195 is no printable ASCII"
    ),
    "a word twice": (
        "  pcap    a", "  run     check conf\n  run     check conf\n  pcap    a", 12,
        '"run" stands at line 11 already'
    ),
    "a word with a bar": (
        "  pcap    a", "  status  0 | 1\n  pcap    a", 11, '"status" stands at line 11 already'
    ),
    "a capture twice": (
        "1514x7\n", "1514x7\n  pcap    a.pcap 60\n", 12, '"pcap a.pcap" stands at line 11 already'
    ),
    "an unknown struct": (
        "48 packet", "48 pakcet", 17, '"pakcet" is no struct; "packet" is meant?'
    ),
    "an unknown field": (
        "num_pkts", "num_pkt", 16, '"num_pkt" is no field of block; "num_pkts" is meant?'
    ),
    "an unknown field of the address": (
        "sll_halen", "sll_halne", 17, '"sll_halne" is no field of packet; "sll_halen" is meant?'
    ),
    "a field of another struct": (
        "sll_halen", "num_pkts", 17, '"num_pkts" is no field of packet'
    ),
    "a field without a value": ("sll_halen 6", "sll_halen", 17, "the field sll_halen has no value"),
    "a field that is too small": (
        "sll_halen 6", "sll_halen 256", 17, "sll_halen has 1 byte, too few for 256"
    ),
    "a field of two bytes": (
        "sll_halen 6", "tp_mac 65536", 17, "tp_mac has 2 bytes, too few for 65536"
    ),
    "members out of order": (
        "member  0", "member  1", 15, '"member 1" stands where "member 0" is due'
    ),
    "a setup": (
        "block_size", "blok_size", 6, '"blok_size" is no word of a setup; "block_size" is meant?'
    ),
    "a frame": ("1514x7", "1514y7", 11, '"1514y7" is no frame: [BYTES:]LENGTH[xN]'),
    "a frame that is too long": (
        "1514x7", "262145", 11, '"262145" is no frame: [BYTES:]LENGTH[xN]'
    ),
    "the first bytes of a frame": (
        "1514x7\n", "ip:1514x7\n  bytes   ipv ff\n", 11, 'no line "bytes" has the name "ip"; '
        '"ipv" is meant?'
    ),
    "bytes": (
        "sll_halen 6", later("  raw     b.pcap 0g"), 18, '"0g" is no bytes: HEX[xN]'
    ),
    "half a byte": ("sll_halen 6", later("  raw     b.pcap 123"), 18, '"123" is no bytes: HEX[xN]'),
    "a place without bytes": (
        "sll_halen 6", later("  file    out.0.blk 4"), 18, "the line lacks a bytes: HEX[xN]"
    ),
    "a number": ("sll_halen 6", later("  taken   many"), 18, '"many" is no number'),
    "no number": ("sll_halen 6", later("  cut     a.pcap"), 18, "the line lacks a number"),
    "a further word": ("sll_halen 6", later("  cut     a.pcap 3 4"), 18, '"4" is too much'),
    "one of some words": ("sll_halen 6", later("  plain   yess"), 18, '"yess" is none of: yes'),
    "calls": ("sll_halen 6", later("  poor    cal 1"), 18, '"cal" is none of: call write'),
    "a file": (
        "sll_halen 6", later("  cut     b.pcap 3"), 18,
        '"b.pcap" is no file that may stand here; "a.pcap" is meant?'
    ),
    "calls that fail": (
        "sll_halen 6", later("  fail    fetc 1"), 18,
        '"fetc" is no file that may stand here; "fetch" is meant?'
    ),
    "a point": (
        "sll_halen 6", later("  hold    frame 0 until block 0.1"), 18,
        '"frame 0" is no point: frame CPU.N, block or decode MEMBER.N, moment MS'
    ),
    "a line too often": (
        "sll_halen 6", later("  sched   feed 0 x4097"), 18,
        '"x4097" is no number of times up to 4096'
    ),
    "tries": (
        "k0.k0.k0.k0.d0.d0.d0.", "k0.q0.", 14,
        '"k0.q0." is no tries: digits, k, r, d and points, or -'
    ),
    "notes": (
        "kknkddd.", "kxn.", 15,
        '"kxn." is no notes: digits, k, n, r, d, t, T, H, c and points, or -'
    ),
    "a frame that is kept": (
        "kept 0-3", "kept 3-0", 15,
        '"3-0" is no frame that is kept: [CAPTURE.]INDEX[-INDEX][/BYTES]'
    ),
    "a frame that there isn't": (
        "kept 0-3", "kept 0-7", 15, '"0-7" is kept of 7 frames, from 0 on'
    ),
    "a block": ("1:3248x2", "3248x2", 15, '"3248x2" is no block: STATUS:LENGTH[xN]'),
}


def slipped(slip: tuple[str, str, int, str]) -> str:
    old, new, _, _ = slip
    assert GOOD.count(old) == 1
    return GOOD.replace(old, new)


def said_of(text: str) -> str:
    """What the reader says of a file."""
    try:
        Document(Path("my.txt"), text).scenarios()
    except Mistake as mistake:
        return str(mistake)
    return ""


@pytest.mark.parametrize("what", SLIPS)
def test_a_slip(what: str) -> None:
    slip = SLIPS[what]
    assert said_of(slipped(slip)) == f"my.txt:{slip[2]}: {slip[3]}"


def by_command(room: Path, text: str, *words: str | Path) -> subprocess.CompletedProcess:
    """What `checks/scenario.py` does with a file."""
    (room / "my.txt").write_text(text, encoding="utf-8")
    words = [sys.executable, "-B", TOP / "checks/scenario.py", *words, "my.txt"]
    return subprocess.run(words, cwd=room, capture_output=True, text=True, check=False)


def test_comments_stand_anywhere(room: Path) -> None:
    done = by_command(room, GOOD)
    assert (done.stdout, done.stderr) == (
        "my.txt: 1 scenarios, 1 worked out, 0 carried out, 0 differ\n", ""
    )


def test_a_slip_is_one_line(room: Path) -> None:
    done = by_command(room, slipped(SLIPS["an unknown word"]))
    assert (done.stdout, done.stderr, done.returncode) == (
        "", 'my.txt:11: "pacp" is no word of a scenario; "pcap" is meant?\n', 1
    )


def by_runner(room: Path, text: str) -> subprocess.CompletedProcess:
    """What the program that carries scenarios out in memory does with a file."""
    (room / "my.txt").write_text(text, encoding="utf-8")
    words = [runner(), "said", "my.txt"]
    return subprocess.run(words, cwd=room, capture_output=True, text=True, check=False, timeout=60)


@pytest.mark.parametrize("what", SLIPS)
def test_a_slip_in_memory(what: str, room: Path) -> None:
    """The runner says the same sentence, and nothing else."""
    done = by_runner(room, slipped(SLIPS[what]))
    _, _, number, told = SLIPS[what]
    assert (done.stdout, done.returncode) == (f"my.txt:{number}: {told}\n", 1)


def test_comments_and_blanks_in_memory(room: Path) -> None:
    """A comment above the first scenario, in one and at the end; lines with blanks alone, and
    line ends of two bytes."""
    for text in (GOOD, GOOD.replace("\n\n", "\n  \n"), GOOD.replace("\n", "\r\n")):
        done = by_runner(room, text)
        assert (done.stdout, done.returncode) == ("my.txt: 1 scenarios, 0 differ\n", 0)
        assert said_of(text) == ""


def test_no_file(room: Path) -> None:
    for words in ([runner(), "said"], [sys.executable, "-B", TOP / "checks/scenario.py"]):
        done = subprocess.run(
            [*words, "no.txt"], cwd=room, capture_output=True, text=True, check=False, timeout=60
        )
        assert (done.stdout + done.stderr, done.returncode) == ("no.txt: it can't be read\n", 1)


def test_words_of_the_runner() -> None:
    """Both readers know the same words, and FORM.md has each in a row of its tables."""
    source = (TOP / "crates/scenario_texts/src/forms.rt").read_text(encoding="utf-8")
    said = {
        name: words.replace("\\\n", " ").split()
        for name, words in re.findall(r'const (\w+): &str =\s*"([^"]*)"', source)
    }
    assert said["WORDS"] == WORDS
    assert said["SETUP_WORDS"] == list(dict.fromkeys(SETUP_WORDS))
    form = (TOP / "crates/scenario_runs/FORM.md").read_text(encoding="utf-8")
    cells = re.findall(r"^\| (`[^|]*(?:\\\|[^|]*)*) \|", form, re.MULTILINE)
    told = {found.split()[0] for cell in cells for found in re.findall(r"`([^`]+)`", cell)}
    assert told == set(WORDS)


def test_fields_of_the_runner() -> None:
    """Both readers know the same fields at the same places."""
    source = (TOP / "crates/scenario_texts/src/fields.rt").read_text(encoding="utf-8")
    row = re.compile(r'\("(\w+)", (\d+), (\d), (true|false)\)')
    tables = {
        name.lower(): {
            found[0]: (int(found[1]), int(found[2]), ">" if found[3] == "true" else "<")
            for found in row.findall(body)
        }
        for name, body in re.findall(r"static (\w+): .*?= \[(.*?)\];", source, re.DOTALL)
    }
    assert tables.pop("address") == ADDRESS
    for name, front in (("packet", 48), ("slot", 32)):
        tables[name] |= {
            field: (front + at, size, order) for field, (at, size, order) in ADDRESS.items()
        }
    assert tables == FIELDS


DIFFERING = GOOD.replace("packets 7 drops 3", "packets 8 drops 3").replace(
    "sll_halen 6", "sll_halen 8"
)


def test_other_lines_are_a_diff_in_memory(room: Path) -> None:
    """It is carried out twice, and what differs is said once."""
    done = by_runner(room, DIFFERING)
    assert done.stdout == """my.txt:9: a full ring: it differs
         9   0 Fine
        12   cpu 0 frames 7 arrivals 7 end ok
        12 - member 0 packets 8 drops 3 freezes 1 blocks 2
           + member 0 packets 7 drops 3 freezes 1 blocks 2
        13   total arrivals 7 filtered 0 kept 4 drops 3
        14   k0.k0.k0.k0.d0.d0.d0. 10734
        15   kknkddd. 4 2
        17 ! sll_halen 8: it is 6
my.txt: 1 scenarios, 1 differ
"""


SECOND = """my.txt:9: a full ring: the second program: other lines are printed
        12   cpu 0 frames 7 arrivals 7 end ok
        12 - member 0 packets 8 drops 3 freezes 1 blocks 2
           + member 0 packets 7 drops 3 freezes 1 blocks 2
        13   total arrivals 7 filtered 0 kept 4 drops 3
        out.0.blk 48 packet sll_halen 8: at 107 there are the bytes 06
"""


def test_other_lines_are_a_diff(room: Path) -> None:
    """With the numbers of the lines that say what is expected."""
    done = by_command(room, DIFFERING)
    counts = "my.txt: 1 scenarios, 1 worked out, 0 carried out, 1 differ\n"
    assert done.stdout == SECOND + counts


def test_a_program_is_told_once(room: Path, program: Path) -> None:
    """Of the two times that it is carried out, with its blocks dumped and without."""
    done = by_command(room, DIFFERING, "--program", program)
    counts = "my.txt: 1 scenarios, 1 worked out, 1 carried out, 1 differ\n"
    again = SECOND.replace("my.txt:9: a full ring: the second program", "    the program, dumped")
    assert done.stdout == SECOND + again + counts


@pytest.mark.parametrize(
    ("word", "other", "near"),
    [
        ("pacp", "pcap", True), ("cap", "pcap", True), ("pcapp", "pcap", True),
        ("bose", "base", True), ("base", "base", False), ("ab", "pcap", False),
        ("ticks", "sticks", True), ("cpu", "pcap", False),
    ]
)
def test_near(word: str, other: str, near: bool) -> None:
    assert is_near(word, other) == near
    assert is_near(other, word) == near
