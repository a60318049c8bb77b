"""The form of what follows each word of a scenario, and what is wrong with another value."""
from __future__ import annotations

import re
from collections.abc import Callable

from scenarios.fields import FIELDS, wrong_names

WORDS = (
    "> absent base bytes conf cpu cut endless fail faults fields file filter frames half hold like "
    "member part pcap pieces plain poor raw report run sched sent status tail taken ticks with"
).split()
# Of these words only one line counts, and of the others only one line with a name.
SINGLE = "like run plain status taken report frames".split()
NAMED = "bytes tail pcap cut endless pieces part sent fail half faults poor".split()
LONGEST, MOST, MOST_LINES, GREATEST = 262_144, 2_000_000, 4096, 2**64 - 1


class Slip(ValueError):
    """What is wrong with a line, without its number."""


def is_number(word: str, greatest: int = GREATEST) -> bool:
    return re.fullmatch(r"\+?[0-9]+", word) is not None and int(word) <= greatest


def front_of(word: str) -> str:
    """What comes before the times that a word is repeated; empty where these can't be read."""
    front, sign, times = word.partition("x")
    return front if not sign or is_number(times, MOST) else ""


def is_bytes(word: str) -> bool:
    return re.fullmatch(r"([0-9a-fA-F]{2})+", front_of(word)) is not None


def is_frame(word: str) -> bool:
    name, colon, length = front_of(word).partition(":")
    return is_number(length if colon else name, LONGEST)


def is_kept(word: str) -> bool:
    frames, slash, most = word.partition("/")
    capture, dot, indices = frames.partition(".")
    first, dash, last = (indices if dot else frames).partition("-")
    numbers = [first, last if dash else first, most if slash else "0", capture if dot else "0"]
    return all(map(is_number, numbers)) and int(first) <= int(numbers[1])


def is_block(word: str) -> bool:
    status, _, length = front_of(word).partition(":")
    return is_number(status) and is_number(length)


def is_point(words: str) -> bool:
    kind, _, place = words.partition(" ")
    line, _, at = place.strip().partition(".")
    if kind == "moment":
        return is_number(place.strip())
    return kind in ("frame", "block", "decode") and is_number(line, 7) and is_number(at)


def is_times(word: str) -> bool:
    return not word.startswith("x") or not is_number(word[1:]) or int(word[1:]) <= MOST_LINES


Kind = tuple[str, Callable[[str], bool]]
NUMBER: Kind = ("number", is_number)
BYTES: Kind = ("bytes: HEX[xN]", is_bytes)
FRAME: Kind = ("frame: [BYTES:]LENGTH[xN]", is_frame)
KEPT: Kind = ("frame that is kept: [CAPTURE.]INDEX[-INDEX][/BYTES]", is_kept)
BLOCK: Kind = ("block: STATUS:LENGTH[xN]", is_block)
TRIES: Kind = (
    "tries: digits, k, r, d and points, or -", lambda word: not word.strip("0123456789krd.@-")
)
NOTES: Kind = (
    "notes: digits, k, n, r, d, t, T, H, c and points, or -",
    lambda word: not word.strip("0123456789knrdtTHc.-")
)
POINT: Kind = ("point: frame CPU.N, block or decode MEMBER.N, moment MS", is_point)
TIMES: Kind = ("number of times up to 4096", is_times)


def one(kind: Kind, word: str) -> None:
    what, is_such = kind
    if not word:
        raise Slip(f"the line lacks a {what}")
    if not is_such(word):
        raise Slip(f'"{word}" is no {what}')


def none(words: str) -> None:
    if words:
        raise Slip(f'"{words}" is too much')


def only(kind: Kind, words: str) -> None:
    first, rest = parted(words)
    one(kind, first)
    none(rest)


def each(kind: Kind, words: str) -> None:
    for word in words.split():
        one(kind, word)


def some(kind: Kind, words: str) -> None:
    one(kind, (words.split() or [""])[0])
    each(kind, words)


def among(words: str, word: str) -> None:
    if word not in words.split():
        raise Slip(f'"{word}" is none of: {words}')


def parted(words: str) -> tuple[str, str]:
    """The first of some words, and the others."""
    first, _, rest = words.strip().partition(" ")
    return first, rest.strip()


def member_parts(value: str) -> tuple[str, str, str]:
    """The parts of a member's line after its number: notes, frames that are kept, and blocks."""
    front, _, blocks = value.partition(" blocks ")
    notes, _, kept = front.partition(" kept ")
    return notes.strip(), kept, blocks


def check_cpu(index: str, rest: str) -> None:
    tries, sign, given = rest.partition(" given ")
    one(NUMBER, index)
    some(TRIES, tries)
    if sign:
        only(NUMBER, given)


def check_member(index: str, rest: str) -> None:
    notes, kept, blocks = member_parts(rest)
    one(NUMBER, index)
    only(NOTES, notes)
    each(KEPT, kept)
    each(BLOCK, blocks)


def check_place(_: str, rest: str) -> None:
    at, digits = parted(rest)
    one(NUMBER, at)
    some(BYTES, digits)


def check_fields(_: str, rest: str) -> None:
    at, fields = parted(rest)
    one(NUMBER, at)
    layout, pairs = parted(fields)
    if layout not in FIELDS:
        raise Slip(next(wrong_names(["", at, layout])))
    words = pairs.split()
    for name, value in zip(words[::2], [*words[1::2], ""]):
        for what in wrong_names(["", at, layout, name]):
            raise Slip(what)
        size = FIELDS[layout][name][1]
        if not value:
            raise Slip(f"the field {name} has no value")
        one(NUMBER, value)
        if int(value) >= 256**size:
            raise Slip(f"{name} has {size} byte{'s'[:size > 1]}, too few for {value}")


def check_half(name: str, rest: str) -> None:
    among("save", name)
    call, left = parted(rest)
    one(NUMBER, call)
    only(NUMBER, left)


def check_faults(name: str, rest: str) -> None:
    among("save", name)
    only(NUMBER, rest)


def check_poor(name: str, rest: str) -> None:
    among("call write", name)
    some(NUMBER, rest)


# What is checked of the first word of a value and of the others.
AFTER_NAME: dict[str, Callable[[str, str], None]] = {
    **dict.fromkeys(("cut", "endless", "pieces", "part"), lambda _, rest: only(NUMBER, rest)),
    **dict.fromkeys(("bytes", "tail", "raw"), lambda _, rest: each(BYTES, rest)),
    "pcap": lambda _, rest: each(FRAME, rest),
    "fail": lambda _, rest: some(NUMBER, rest),
    "sent": lambda _, rest: each(KEPT, rest),
    "status": lambda first, _: one(NUMBER, first),
    "file": check_place,
    "fields": check_fields,
    "faults": check_faults,
    "poor": check_poor,
    "half": check_half,
    "cpu": check_cpu,
    "member": check_member,
}


def check_hold(value: str) -> None:
    held, _, until = value.partition(" until ")
    one(POINT, held.strip())
    one(POINT, until.strip())


# What is checked of a whole value.
WHOLE: dict[str, Callable[[str], None]] = {
    **dict.fromkeys(("like", "run", "absent"), lambda value: None),
    **dict.fromkeys(
        ("conf", "with", "sched", "filter", "ticks", ">"),
        lambda value: one(TIMES, value.rpartition(" ")[2])
    ),
    "base": none,
    "plain": lambda value: among("yes", value),
    "report": lambda value: among("any", value),
    "taken": lambda value: only(NUMBER, value),
    "frames": lambda value: each(FRAME, value),
    "hold": check_hold,
}


def check_value(word: str, value: str) -> None:
    """The value of a line, or a part of it between bars, has the form of the line's word."""
    if value and word in WHOLE:
        WHOLE[word](value)
    elif value:
        AFTER_NAME[word](*parted(value))


def key_of(word: str, value: str) -> str | None:
    """What may stand only once in a scenario: a word of which only the first line counts, or such a
    word and a name; `None` for the other words."""
    if word in SINGLE:
        return ""
    return parted(value)[0] if word in NAMED else None
