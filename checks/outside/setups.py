"""The texts that the tables of docs/reference.md and refused_texts.md show, each with what a
program has to answer to it."""
from __future__ import annotations

import re
from collections.abc import Iterator
from dataclasses import dataclass
from pathlib import Path

from places import TOP

# What stands in words in a table of lines, and isn't shown.
SHOWN = {"an empty line": "", "a line of blanks": " \t"}
WORDS_HEAD = "| Line | Its value | Without it |"
LINES_HEAD = "| Lines | Answer |"
RINGS_HEAD = "| Ring | Answer |"
COMMANDS_HEAD = "| Command | Lines | Answer |"
COMMAND_RINGS_HEAD = "| Command | Ring | Answer |"
TEXTS_HEAD = "| Text | Answer |"
NEEDED = ["block_size", "block_nr", "frame_size", "frame_nr", "cpu"]
MOST = 1_048_576

Row = list[str]
Texts = dict[str, bytes]


def tables(text: str) -> list[tuple[str, list[Row]]]:
    """The tables of a document: their first lines, each with the cells of the rows below it."""
    found = []
    rows: list[Row] | None = None
    for line in text.split("\n"):
        if not line.startswith("|"):
            rows = None
        elif rows is None:
            rows = []
            found.append((line, rows))
        elif not line.startswith("|---"):
            rows.append([cell.strip() for cell in line.strip("|").split("|")])
    return found


def rows_below(text: str, head: str) -> list[Row]:
    """The rows of all tables with this first line."""
    rows = [row for first, rows in tables(text) if first == head for row in rows]
    if not rows:
        raise LookupError(f"no document has a table {head}")
    return rows


def lines_of(cell: str) -> list[str]:
    """The lines that a cell shows, one after another."""
    parts = re.findall(r"`([^`]*)`|(" + "|".join(SHOWN) + ")", cell)
    return [shown if not told else SHOWN[told] for shown, told in parts]


def line_of(which: str, cell: str) -> str:
    """What is printed for an answer such as `line 6: twice`."""
    found = re.fullmatch(r"line (\d+): `([^`]*)`", cell)
    if not found:
        raise ValueError(f"{cell} is no answer")
    return f"{which} line {found[1]}: {found[2]}\n"


def number_in(cell: str, word: str) -> int:
    """How many CPUs or members a cell speaks of."""
    found = re.search(r"of (two|three) " + word, cell)
    return {"two": 2, "three": 3}[found[1]] if found else 1


@dataclass(frozen=True)
class Asked:
    """Words for the program, the files that they name, and what it has to answer: its status and
    what it prints."""

    words: tuple[str, ...]
    files: Texts
    status: int
    printed: str


def checked(status: int, printed: str, lines: list[str], end: str = "\n", **texts: bytes) -> Asked:
    """What `check` says to a setup of these lines."""
    files = {f"{name}.txt": text for name, text in texts.items()}
    return Asked(
        ("check", "conf"), {"conf": (end.join(lines) + end).encode(), **files}, status, printed
    )


def read_document(*paths: Path) -> str:
    return "".join(path.read_text(encoding="utf-8") for path in paths)


TEXT = read_document(TOP / "docs/reference.md", Path(__file__).parent / "refused_texts.md")
WORDS = [lines_of(row[0])[0] for row in rows_below(TEXT, WORDS_HEAD)]
NEED = WORDS[: len(NEEDED)]


def accepted() -> Iterator[tuple[str, Asked]]:
    """The setups of the table of words: what is needed alone, and what may stand after it."""
    further = WORDS[len(NEEDED) :]
    for at in range(len(further) + 1):
        # of what may stand, a line and all after it, so that the key stands where a mode needs it
        yield f"the words from {at}", checked(0, "ok\n", NEED + further[at:])
    yield "the words backwards", checked(0, "ok\n", WORDS[::-1])
    yield "lines that end as another system writes them", checked(0, "ok\n", WORDS, "\r\n")
    for word in NEEDED:
        rest = [line for line in NEED if line.split()[0] != word]
        yield f"no {word}", checked(2, f"setup line 0: missing {word}\n", rest)


def measured() -> Iterator[tuple[str, Asked]]:
    """Texts and names at their greatest length, and above it."""
    front = "".join(line + "\n" for line in NEED)
    comment = "#" * (MOST - len(front))
    yield "a text of the greatest length", checked(0, "ok\n", [front + comment], "")
    yield "a text above it", checked(2, "setup line 0: too_large\n", [front + comment + "#"], "")
    yield "a name of 255 bytes", checked(0, "ok\n", NEED + ["out " + "n" * 255])
    yield "a name of 256 bytes", checked(
        2, "setup line 6: bad_number\n", NEED + ["out " + "n" * 256]
    )


def refused() -> Iterator[tuple[str, Asked]]:
    """The lines that are refused after what is needed, and the rings, each before the line of a
    CPU."""
    for cell, answer in rows_below(TEXT, LINES_HEAD):
        yield cell, checked(2, line_of("setup", answer), NEED + lines_of(cell))
    for cell, answer in rows_below(TEXT, RINGS_HEAD):
        yield cell, checked(2, line_of("setup", answer), lines_of(cell) + NEED[-1:])


def refused_by_commands() -> Iterator[tuple[str, Asked]]:
    """The lines, and the rings, that a command refuses."""
    lines = [(*row, NEED + lines_of(row[1])) for row in rows_below(TEXT, COMMANDS_HEAD)]
    rings = [(*row, lines_of(row[1]) + NEED[-1:]) for row in rows_below(TEXT, COMMAND_RINGS_HEAD)]
    for command, cell, answer, setup in lines + rings:
        word = lines_of(command)[0]
        words = (word, "conf", "sched") if word == "replay2" else (word, "conf")
        yield f"{command} {cell}", Asked(
            words, {"conf": ("\n".join(setup) + "\n").encode()}, 2, line_of("setup", answer)
        )


def other_texts() -> Iterator[tuple[str, Asked]]:
    """The texts beside the setup that are refused."""
    for cell, answer in rows_below(TEXT, TEXTS_HEAD):
        text = "".join(line + "\n" for line in lines_of(cell)).encode()
        if cell.startswith("moments"):
            yield cell, checked(3, line_of("ticks", answer), NEED + ["ticks t.txt"], t=text)
        elif cell.startswith("filter"):
            yield cell, checked(3, line_of("filter", answer), NEED + ["filter f.txt"], f=text)
        else:
            cpus, members = ["cpu b.pcap"] * (
                number_in(cell, "CPUs") - 1
            ), f"members {number_in(cell, 'members')}"
            files = {"conf": ("\n".join([*NEED, *cpus, members]) + "\n").encode(), "sched": text}
            yield cell, Asked(("replay", "conf", "sched"), files, 3, line_of("schedule", answer))
