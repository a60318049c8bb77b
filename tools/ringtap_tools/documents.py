"""Finds the tables of the documents, wherever these are: beside the tools in the repository, or
where install.sh puts them."""
from __future__ import annotations

import re
from pathlib import Path

from .files import Fault, read_bytes

HERE = Path(__file__).resolve().parent.parent  # where the commands are
IS_INSTALLED = HERE.name == "ringtap"  # lib/ringtap, with the documents in share/doc/ringtap
TOP = HERE.parent.parent / "share/doc/ringtap" if IS_INSTALLED else HERE.parent
DOCUMENTS = TOP / "docs"
# where a table is looked for before other documents
FIRST = (DOCUMENTS / "reference.md", TOP / "README.md")

Rows = list[dict[str, str]]


def documents() -> list[Path]:
    others = sorted(path for path in DOCUMENTS.glob("*.md") if path not in FIRST)
    return [path for path in [*FIRST, *others] if path.is_file()]


def cells_of(line: str) -> list[str]:
    """The cells of a line of a table; a `\\|` is no border."""
    return [cell.strip().replace("\\|", "|") for cell in re.split(r"(?<!\\)\|", line.strip())[1:-1]]


def table_with(columns: set[str]) -> Rows:
    """The first table of the documents that has all of these columns."""
    for path in documents():
        lines = read_bytes(path).decode().splitlines()
        for at, line in enumerate(lines[:-1]):
            heads = cells_of(line)
            if columns <= set(heads) and lines[at + 1].startswith("|--"):
                rows = []
                for row in lines[at + 2 :]:
                    if not row.startswith("|"):
                        break
                    rows.append(dict(zip(heads, cells_of(row))))
                return rows
    raise Fault(
        f"no document in {DOCUMENTS} has a table with the columns {', '.join(sorted(columns))}"
    )


def plain(cell: str) -> str:
    """A cell without what is laid out: code and links as their words, without the stars of
    limits."""
    cell = re.sub(r"\[([^]]*)\]\([^)]*\)", r"\1", re.sub(r"\s*\(section \d+\)", "", cell))
    return cell.replace("**", "").replace("`", "").replace("*", "")
