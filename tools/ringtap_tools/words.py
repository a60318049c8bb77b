"""The words of a tool: its help within 80 columns with an example, one line of usage before an
error, its version, and JSON."""
from __future__ import annotations

import argparse
import json
import re
import textwrap
from fractions import Fraction
from typing import NoReturn

VERSION, DATE = "0.1.0", "2026-11-29"  # of the tools and their man pages
COLUMNS = 79
UNITS = {"K": 1 << 10, "M": 1 << 20, "G": 1 << 30}


class HelpLines(argparse.HelpFormatter):
    """Help in 80 columns whatever the terminal has. Paragraphs are laid out anew; lines that begin
    with blanks stay."""

    def __init__(self, prog: str) -> None:
        super().__init__(prog, max_help_position=24, width=COLUMNS)

    def _fill_text(self, text: str, width: int, indent: str) -> str:
        parts = []
        for paragraph in re.split(r"\n\s*\n", text.strip("\n")):
            is_shown = paragraph.startswith(" ") or "\n " in paragraph
            parts.append(
                paragraph if is_shown else textwrap.fill(" ".join(paragraph.split()), width)
            )
        return "\n\n".join(parts)


class ToolParser(argparse.ArgumentParser):
    """The options of a tool. `example` is a command line without the tool's name."""

    def __init__(self, description: str | None, example: str, error_status: int = 2) -> None:
        super().__init__(
            description=description,
            epilog=f"example:\n  %(prog)s {example}",
            formatter_class=HelpLines,
            allow_abbrev=False,
        )
        self.error_status = error_status
        self.add_argument("--version", action="version", version=f"%(prog)s (ringtap) {VERSION}")

    def one_line(self) -> str:
        """The usage in one line."""
        words = []
        for action in self._get_positional_actions():
            name = str(action.metavar or action.dest)
            words.append(
                {"?": f"[{name}]", "*": f"[{name} ..]", "+": f"{name} [{name} ..]"}.get(
                    str(action.nargs), name
                )
            )
        return " ".join([self.prog, "[OPTION ..]", *words])

    def format_usage(self) -> str:
        return f"usage: {self.one_line()}\n"

    def format_help(self) -> str:
        self.usage = self.one_line().replace("%", "%%")
        return super().format_help()

    def error(self, message: str) -> NoReturn:
        self.exit(
            self.error_status,
            f"{self.format_usage()}{self.prog}: {message}; --help has all options\n",
        )


def add_json(parser: argparse.ArgumentParser) -> None:
    parser.add_argument(
        "--json", action="store_true", help="print one JSON object in place of text"
    )


def print_json(value: dict[str, object]) -> None:
    """One object, its numbers as numbers."""
    print(json.dumps(value, indent=1, ensure_ascii=False))


def counted(text: str) -> Fraction:
    """A number above 0, as `250` or `0.5`; K, M and G after it count 1,024, 1,048,576 and
    1,073,741,824."""
    unit = UNITS.get(text[-1:].upper(), 1)
    try:
        number = Fraction(text if unit == 1 else text[:-1]) * unit
    except (ValueError, ZeroDivisionError):
        raise argparse.ArgumentTypeError(f"{text!r} is no number, as 250, 64K or 1M") from None
    if number <= 0:
        raise argparse.ArgumentTypeError(f"{text!r} isn't above 0")
    return number
