"""What a refusal of a text means: the line itself, and what to change, by the limits and the table
of docs/reference.md."""
from __future__ import annotations

import difflib
import re
from dataclasses import dataclass
from pathlib import Path
from typing import Callable

from .documents import plain, table_with
from .files import LARGEST_TEXT, Fault, Setup, number_of, words_of

# of receive side scaling
KEY = "6d5a56da255b0ec24167253d43a38fb0d0ca2bcbae7b30b477cb2da38030f20c6a42b73bbeac01fa"
# The values of each line of a setup.
VALUES = {
    "block_size": "a number",
    "block_nr": "a number",
    "frame_size": "a number",
    "frame_nr": "a number",
    "tov": "0 to 60000 milliseconds",
    "priv": "a number",
    "features": "0 or 1",
    "cpu": "the name of a capture, and a receive queue, 0 to 65535, or nothing",
    "members": "a number",
    "mode": "hash, lb, cpu, rollover or qm",
    "flag": "rollover or defrag",
    "key": "80 hexadecimal digits",
    "mac": "12 hexadecimal digits without colons",
    "filter": "the name of a file",
    "ticks": "the name of a file",
    "out": "a prefix",
    "dump": "yes, and isn't there otherwise",
    "skip_bad": "yes, and isn't there otherwise",
    "make": "two numbers, the second from 1 to 20000",
    "workers": "0 to 8",
}
SCHEDULE_WORDS = {
    "feed": "a CPU",
    "read": "a member",
    "tick": "a moment in milliseconds",
    "stats": "a member",
}
# What other programs and headers call it.
LINES_ELSEWHERE = {
    "blk_size": "block_size",
    "blk_nr": "block_nr",
    "frm_size": "frame_size",
    "frm_nr": "frame_nr",
    "tmo": "tov",
    "tp_block_size": "block_size",
    "tp_block_nr": "block_nr",
    "tp_frame_size": "frame_size",
    "tp_frame_nr": "frame_nr",
    "tp_retire_blk_tov": "tov",
    "tp_sizeof_priv": "priv",
    "tp_feature_req_word": "features",
    "block-size": "block_size",
    "block-timeout": "tov",
    "block_timeout": "tov",
    "cluster-type": "mode",
    "fanout_mode": "mode",
    "threads": "members",
    "defrag": "flag defrag",
    "rollover": "flag rollover",
    "bpf-filter": "filter",
    "timeout": "tov",
    "capture": "cpu",
    "pcap": "cpu",
    "file": "cpu",
    "output": "out",
}
MODES_ELSEWHERE = {
    "cluster_flow": ("Suricata's", "hash"),
    "cluster_cpu": ("Suricata's", "cpu"),
    "cluster_qm": ("Suricata's", "qm"),
    "cluster_rollover": ("Suricata's", "rollover"),
    "fanout_hash": ("Zeek's", "hash"),
    "fanout_lb": ("Zeek's", "lb"),
    "fanout_cpu": ("Zeek's", "cpu"),
    "fanout_qm": ("Zeek's", "qm"),
    "packet_fanout_hash": ("the kernel's", "hash"),
    "packet_fanout_lb": ("the kernel's", "lb"),
    "packet_fanout_cpu": ("the kernel's", "cpu"),
    "packet_fanout_qm": ("the kernel's", "qm"),
    "packet_fanout_rollover": ("the kernel's", "rollover"),
    "roll": ("what ss calls", "rollover"),
    "rollover": ("", "rollover"),
}
MODES_LEFT_OUT = (
    "rnd",
    "random",
    "cbpf",
    "ebpf",
    "cluster_random",
    "cluster_ebpf",
    "unique",
    "data",
)
LARGEST_BLOCK, LARGEST_RING, LEAST_BLOCKS, MOST_BLOCKS, MOST_SLOTS = (
    1_048_576,
    67_108_864,
    2,
    256,
    65_536,
)
PAGE, ALIGNMENT = 4096, 16
SHOWN = 70  # characters of a line


@dataclass(frozen=True)
class Refusal:
    """What the program printed of a text: `setup line 6: unknown_word`."""

    text: str  # setup, filter, ticks or schedule
    line: int  # 0: the text as a whole
    kind: str

    @property
    def words(self) -> list[str]:
        return self.kind.split()


def refusal_of(printed: str) -> Refusal | None:
    found = re.fullmatch(r"(setup|filter|ticks|schedule) line (\d+): (.+)", printed.strip())
    return Refusal(found[1], int(found[2]), found[3]) if found else None


@dataclass
class Place:
    """The text that was refused."""

    path: Path
    lines: list[str]  # none where it can't be read again
    command: str
    setup: Setup | None

    def line(self, number: int) -> str:
        return self.lines[number - 1] if 1 <= number <= len(self.lines) else ""


def read_lines(path: Path) -> list[str]:
    """The lines of a text, where it is a file that can be read again."""
    if not path.is_file():
        return []
    try:
        with open(path, "rb") as file:
            data = file.read(LARGEST_TEXT + 1)
    except OSError:
        return []
    return [line.removesuffix("\r") for line in data.decode("utf-8", "surrogateescape").split("\n")]


def quoted(line: str) -> str:
    """A line as it stands, in one line of output."""
    words = " ".join(words_of(line))
    shown = "".join(
        char if char.isprintable() or 0xDC80 <= ord(char) <= 0xDCFF else ascii(char)[1:-1]
        for char in words
    )
    return f'"{shown}"' if len(shown) <= SHOWN else f'"{shown[:SHOWN]}.."'


def explain(refusal: Refusal, place: Place) -> str:
    """The sentence that says what is wrong: the file, the line, what it has, and what to change."""
    makers = {
        "setup": explain_setup,
        "schedule": explain_schedule,
        "ticks": explain_ticks,
        "filter": explain_filter,
    }
    number, told = makers[refusal.text](refusal, place) if place.lines else (refusal.line, "")
    told = told or from_table(refusal)
    line = place.line(number)
    where = f"{place.path}, line {number}" if number else f"{place.path}"
    return f"{where}: {quoted(line)}: {told}" if line.strip() else f"{where}: {told}"


def from_table(refusal: Refusal) -> str:
    """What docs/reference.md says of a printed word."""
    for row in table_with({"Printed", "It means", "What to change"}):
        printed = row["Printed"].strip("`").split()
        if printed[0] == refusal.words[0] and (
            printed[1:] == refusal.words[1:] or printed[1:] == ["W"]
        ):
            return f"{plain(row['It means'])}; {plain(row['What to change'])}"
    return refusal.kind


def meant(word: str, words: list[str]) -> str | None:
    """The word that is likely meant: in other letters, or with a letter wrong."""
    if word.lower() in words:
        return word.lower()
    near = difflib.get_close_matches(word.lower().replace("-", "_"), words, 1, 0.75)
    return near[0] if near else None


# ---- setups


def explain_setup(refusal: Refusal, place: Place) -> tuple[int, str]:
    words = words_of(place.line(refusal.line))
    if refusal.line == 0:
        return explain_whole(refusal, place)
    makers: dict[str, Callable[[list[str], Refusal, Place], str]] = {
        "bad_line": bad_setup_line,
        "unknown_word": unknown_in_setup,
        "twice": twice_in_setup,
        "bad_number": bad_setup_number,
    }
    return refusal.line, (
        makers[refusal.kind](words, refusal, place) if refusal.kind in makers and words else ""
    )


def wrong_byte(line: str) -> str:
    """The first byte that no text has, in words."""
    if line.startswith("\ufeff"):
        return (
            "the line begins with a UTF-8 mark (the bytes ef bb bf): save the text without one, as"
            " ASCII"
        )
    for at, char in enumerate(line, 1):
        if char != "\t" and not " " <= char <= "~":
            shown = f'"{char}"' if char.isprintable() else f"the byte 0x{ord(char) & 0xFF:02x}"
            return f"column {at} has {shown}, and a line has printable ASCII alone"
    return ""


def bad_setup_line(words: list[str], refusal: Refusal, place: Place) -> str:
    found = wrong_byte(place.line(refusal.line))
    if found:
        return found
    name, count = words[0], len(words) - 1
    if name == "cpu" and count in (1, 2):
        return "a ninth CPU, and ringtap has at most 8"
    if any(word.startswith("#") for word in words[1:]):
        return "a comment needs a line of its own"
    if name == "cpu" and count > 2:
        return (
            f'"cpu" takes {VALUES["cpu"]}; a name has no space, so give the file another name or a'
            " link"
        )
    return (
        f'"{name}" takes {VALUES.get(name, "a value")}; here are {count} values'
        if count
        else f'"{name}" takes {VALUES.get(name, "a value")}'
    )


def unknown_in_setup(words: list[str], refusal: Refusal, place: Place) -> str:
    name = words[0]
    if name not in VALUES:
        return unknown_line(name)
    if name == "mode":
        return unknown_mode(words[1])
    if name == "flag":
        near = meant(words[1], ["rollover", "defrag"])
        return (
            f'no such flag; "flag {near}" is meant?'
            if near
            else "no such flag; there are rollover and defrag"
        )
    return f'"{name}" takes {VALUES[name]}'


def unknown_line(name: str) -> str:
    bare = re.split("[:=]", name)[0]
    if bare.lower() in LINES_ELSEWHERE:
        return f'no such line; here it is "{LINES_ELSEWHERE[bare.lower()]}"'
    if bare in VALUES:
        return f'no such line; "{bare}" and its value stand between blanks'
    if name in SCHEDULE_WORDS:
        return "a line of a schedule, and this is the setup: CONF comes before SCHED"
    near = meant(name, list(VALUES))
    return (
        f'no such line; "{near}" is meant?'
        if near
        else f"no such line; there are {', '.join(VALUES)}"
    )


def unknown_mode(mode: str) -> str:
    name = mode.lower().split("::")[-1]
    if name in MODES_LEFT_OUT:
        return f"a mode that ringtap has not; there are {VALUES['mode']}"
    if name in MODES_ELSEWHERE and MODES_ELSEWHERE[name][0]:
        whose, word = MODES_ELSEWHERE[name]
        return f'no such mode; {whose} {mode} is "mode {word}"'
    near = meant(mode, ["hash", "lb", "cpu", "rollover", "qm"])
    return (
        f'no such mode; "mode {near}" is meant?'
        if near
        else f"no such mode; there are {VALUES['mode']}"
    )


def twice_in_setup(words: list[str], refusal: Refusal, place: Place) -> str:
    wanted = words[:2] if words[0] == "flag" else words[:1]
    for number, line in enumerate(place.lines[: refusal.line - 1], 1):
        if words_of(line)[: len(wanted)] == wanted:
            return f"line {number} has it already, {quoted(line)}: remove one of the two"
    return ""


def bad_setup_number(words: list[str], refusal: Refusal, place: Place) -> str:
    name, values = words[0], words[1:]
    if name == "mac":
        digits = re.sub("[:.-]", "", values[0])
        better = f': "mac {digits}"' if re.fullmatch("[0-9a-fA-F]{12}", digits) else ""
        return f"an address has 12 hexadecimal digits without colons{better}"
    if name == "key":
        return (
            f"a key has 80 hexadecimal digits, and this one {len(values[0])} characters; the usual"
            f" one is {KEY}"
        )
    if name in ("filter", "ticks", "out") or name == "cpu" and len(values[0]) > 255:
        return f"a name has at most 255 bytes, and this one {len(values[0])}"
    for value in values[1:] if name == "cpu" else values:
        if number_of(value) is None and (plainer := number_meant(value)):
            return (
                f"{value} is no number here, which is decimal and without a unit:"
                f' "{name} {plainer}"'
            )
    if name == "cpu":
        return (
            "a receive queue is 0 to 65535; a name has no space, so give the file another name or a"
            " link"
        )
    return f'"{name}" takes {VALUES[name]}'


def number_meant(text: str) -> int | None:
    """The number that another way of writing means, as 64K, 0x10 or 65,536."""
    units = {"k": 1024, "m": 1024**2, "g": 1024**3}
    found = re.fullmatch(r"(\d+)([kmg])(i?b)?", text.lower())
    if found:
        return int(found[1]) * units[found[2]]
    try:
        return int(re.sub("[,_ ]", "", text), 0) if not text.startswith("-") else None
    except ValueError:
        return None


def explain_whole(refusal: Refusal, place: Place) -> tuple[int, str]:
    """A setup whose lines are fine one by one."""
    if refusal.kind == "too_large":
        return 0, f"has more than {LARGEST_TEXT:,} bytes, and a text has no more"
    if not place.setup:
        return 0, ""
    try:
        makers = {"missing": missing_line, "request": refused_request, "group": refused_group}
        return makers[refusal.words[0]](refusal.words[1], place.setup, place.command)
    except (Fault, KeyError, ValueError, ZeroDivisionError):
        return 0, ""


def fitting_frames(setup: Setup) -> int:
    """The `frame_nr` that agrees with the other three lines."""
    return setup.number("block_size") // setup.number("frame_size") * setup.number("block_nr")


def missing_line(word: str, setup: Setup, command: str) -> tuple[int, str]:
    if word == "frame_nr" and {"block_size", "block_nr", "frame_size"} <= set(setup.values):
        return (
            0,
            (
                'has no line "frame_nr"; with its other lines it is "frame_nr'
                f' {fitting_frames(setup)}"'
            ),
        )
    examples = {
        "block_size": 262_144,
        "block_nr": 8,
        "frame_size": 2048,
        "frame_nr": 1024,
        "cpu": "CAPTURE",
        "make": "1 5000",
    }
    return (
        0,
        (
            f'has no line "{word}", which {command if word == "make" else "each setup"} needs; as'
            f' "{word} {examples[word]}"'
        ),
    )


def refused_request(kind: str, setup: Setup, command: str) -> tuple[int, str]:
    """A ring that can't be had, at the line that has to change."""
    size, count = setup.number("block_size", 0), setup.number("block_nr", 0)
    frame = setup.number("frame_size", 0)
    if kind == "block_size":
        below, above = (near_multiple(size, PAGE, LARGEST_BLOCK, up) for up in (False, True))
        near = f'"block_size {below}"' + (f' or "block_size {above}"' if above != below else "")
        return (
            setup.places[kind],
            f"a block has a multiple of {PAGE} bytes, {PAGE} to {LARGEST_BLOCK}: {near}",
        )
    if kind == "block_count":
        most = min(MOST_BLOCKS, LARGEST_RING // size)
        return (
            setup.places["block_nr"],
            f"a ring of blocks of {size} bytes has {LEAST_BLOCKS} to {most} of them",
        )
    if kind == "private":
        return setup.places["priv"], "a private area has 0 to 1024 bytes"
    if kind == "frame_small":
        return setup.places["frame_size"], "a frame has at least 68 bytes; 2048 is usual"
    if kind == "frame_align":
        below, above = frame // ALIGNMENT * ALIGNMENT, -(-frame // ALIGNMENT) * ALIGNMENT
        return (
            setup.places["frame_size"],
            (
                f'a frame has a multiple of {ALIGNMENT} bytes: "frame_size {below}" or "frame_size'
                f' {above}"'
            ),
        )
    if kind == "frame_count" and frame > size:
        return setup.places["frame_size"], f"no frame of {frame} bytes goes into a block of {size}"
    if kind == "frame_count":
        inside = f"{size // frame} frame{'s' * (size // frame != 1)} of {frame} bytes"
        return (
            setup.places["frame_nr"],
            (
                f'{inside} go into each of {count} blocks of {size}: "frame_nr'
                f' {fitting_frames(setup)}"'
            ),
        )
    if kind == "feature":
        return setup.places["features"], "there is bit 0 alone, so 0 or 1"
    if kind == "transmit":
        wrong = [word for word in ("tov", "priv", "features") if setup.number(word, 0)]
        others = "".join(f', and no "{word}"' for word in wrong[1:])
        return (
            setup.places[wrong[0]],
            f"a ring of {command} has none{others}: leave it out, or write 0",
        )
    slots = fitting_frames(setup)
    return (
        setup.places["frame_nr"],
        (
            f"replay2 has at most {MOST_SLOTS:,} slots, and these are {slots:,}: take larger frames"
            " or fewer blocks"
        ),
    )


def near_multiple(number: int, step: int, most: int, is_up: bool) -> int:
    found = (-(-number // step) if is_up else number // step) * step
    return max(step, min(found, most))


def refused_group(kind: str, setup: Setup, command: str) -> tuple[int, str]:
    if kind in ("no_member", "too_many"):
        return setup.places["members"], "a group has 1 to 8 members"
    if kind == "no_key":
        return setup.places["mode"], f'needs a line "key", as "key {KEY}"'
    return (
        setup.places["mode"],
        'tries the other members by itself: remove the line "flag rollover"',
    )


# ---- schedules, moments, filters


def explain_schedule(refusal: Refusal, place: Place) -> tuple[int, str]:
    line = place.line(refusal.line)
    words = words_of(line)
    if refusal.kind == "too_large":
        return (
            0,
            (
                f"has more than {LARGEST_TEXT:,} bytes, and a text has no more; what is fed at the"
                " end needs no line"
            ),
        )
    if refusal.kind == "unknown_word" and words:
        return refusal.line, unknown_step(words[0])
    if refusal.kind == "not_ascending":
        return refusal.line, fall_of(place, refusal.line, 1)
    if refusal.kind == "bad_line":
        if told := wrong_byte(line):
            return refusal.line, told
        taken = SCHEDULE_WORDS.get(words[0], "a number")
        return refusal.line, f'"{words[0]}" takes {taken}; here are {len(words) - 1} values'
    if refusal.kind == "no_such_cpu" and place.setup:
        return refusal.line, f"{place.setup.path} has {numbered(len(place.setup.cpus), 'CPU')}"
    if refusal.kind == "no_such_member" and place.setup:
        return (
            refusal.line,
            f"{place.setup.path} has {numbered(place.setup.number('members', 1), 'member')}",
        )
    if refusal.kind == "bad_number" and len(words) > 1:
        return refusal.line, f"{words[1]} is no number: decimal digits, at most 4294967295"
    return refusal.line, ""


def numbered(count: int, what: str) -> str:
    return f"one {what}, which is 0" if count == 1 else f"{count} {what}s, 0 to {count - 1}"


def unknown_step(name: str) -> str:
    if name in VALUES:
        return "a line of a setup, and this is the schedule: CONF comes before SCHED"
    near = meant(name, list(SCHEDULE_WORDS))
    return (
        f'no such line; "{near}" is meant?'
        if near
        else "no such line; there are feed, read, tick and stats"
    )


def fall_of(place: Place, number: int, at: int) -> str:
    """The last moment before a line, which is later than the line's; `at` is the place of moments
    in lines."""
    for before in range(number - 1, 0, -1):
        words = words_of(place.line(before))
        if len(words) > at and not words[0].startswith("#") and (at == 0 or words[0] == "tick"):
            return (
                f"line {before} has {quoted(place.line(before))}, which is later: moments count"
                " from the begin, and none falls"
            )
    return ""


def explain_ticks(refusal: Refusal, place: Place) -> tuple[int, str]:
    words = words_of(place.line(refusal.line))
    if refusal.kind == "not_ascending":
        return refusal.line, fall_of(place, refusal.line, 0)
    if refusal.kind == "bad_line" and words[:1] == ["tick"]:
        return (
            refusal.line,
            f'a moment stands alone: "{" ".join(words[1:])}"; `tick` is a word of schedules',
        )
    if refusal.kind == "bad_line":
        return (
            refusal.line,
            wrong_byte(place.line(refusal.line))
            or f"a line has one moment, and this one {len(words)}",
        )
    if refusal.kind == "bad_number" and words:
        return refusal.line, f"{words[0]} is no number of milliseconds"
    return refusal.line, ""


def explain_filter(refusal: Refusal, place: Place) -> tuple[int, str]:
    """What else the file may be than what `tcpdump -ddd` prints; else its line."""
    head = "\n".join(place.lines[:3])
    advice = f"`tcpdump -y EN10MB -ddd EXPRESSION >{place.path}` writes what is read here"
    if re.match(r"\(0*\)", head):
        return 1, f"this is of `tcpdump -d`; {advice}"
    if re.match(r"\{ ?0x", head):
        return 1, f"this is of `tcpdump -dd`; {advice}"
    if refusal.kind in ("bad_line", "bad_count") and not re.match(r"\s*\d+\s*$", place.line(1)):
        what = (
            "nothing stands there"
            if not head.strip()
            else "a filter begins with the number of its instructions"
        )
        return 1, f"{what}; {advice}"
    if refusal.kind == "bad_count":
        follow = sum(bool(line.strip()) for line in place.lines[1:])
        return 1, f"{follow} instructions follow; {advice}"
    return refusal.line, ""


def all_filtered(setup: Setup, path: Path) -> str:
    """Why a filter may have kept nothing, by its first load."""
    lines = [line.split() for line in read_lines(path)[1:] if line.strip()]
    first = lines[0] if lines else []
    named = {("40", "14"): "LINUX_SLL", ("40", "0"): "LINUX_SLL2", ("48", "0"): "RAW"}
    link = named.get((first[0], first[3])) if len(first) == 4 else None
    told = f"{path}: every arrival was filtered"
    if (
        any(line[:1] == ["21"] and line[3:] in (["33024"], ["34984"]) for line in lines)
        and not link
    ):
        return (
            f"{told}: a VLAN tag is taken out before the filter sees a frame; `tcpdump -r CAPTURE"
            " -w NEW.pcap vlan` chooses by it before"
        )
    why = (
        f"it reads its first bytes where a frame of link type {link} has them"
        if link
        else "it was perhaps compiled for another link type"
    )
    return f"{told}: {why}; for Ethernet: `tcpdump -y EN10MB -ddd EXPRESSION >{path}`"
