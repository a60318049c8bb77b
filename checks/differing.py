"""What differs of two values, as a diff of lines."""
from __future__ import annotations

import dataclasses
import difflib
from collections.abc import Iterable

MOST = 4_000  # lines of a value that is compared line by line
ROW = 16  # bytes of a line of what is no text


def lines_of(value: object) -> list[str]:
    """A value as lines: those of a text, of bytes their digits, of what has parts those of each."""
    if isinstance(value, str):
        return value.splitlines()
    if isinstance(value, bytes):
        return lines_of_bytes(value)
    if dataclasses.is_dataclass(value) and not isinstance(value, type):
        value = {field.name: getattr(value, field.name) for field in dataclasses.fields(value)}
    if isinstance(value, dict):
        return lines_of_parts((str(name), part) for name, part in value.items())
    if isinstance(value, (list, tuple)):
        return [line for part in value for line in lines_of(part)]
    return [repr(value)]


def lines_of_bytes(value: bytes) -> list[str]:
    """A text where it is one, else digits, each line after its place."""
    if all(byte in b"\t\n\r" or 32 <= byte < 127 for byte in value):
        return value.decode().splitlines()
    return [f"{at}: {value[at : at + ROW].hex(' ', 4)}" for at in range(0, len(value), ROW)]


def lines_of_parts(parts: Iterable[tuple[str, object]]) -> list[str]:
    """Parts in the order of their names, each name before its lines."""
    return [
        line
        for name, part in sorted(parts)
        for line in [f"{name}:", *(f"  {line}" for line in lines_of(part))]
    ]


def diff(found: object, wanted: object, around: int = 2) -> list[str]:
    """The lines that differ, with some that don't around them: after `-` what is wanted and isn't
    found, after `+` what is found and isn't wanted. None of what is too long."""
    ours, theirs = lines_of(found), lines_of(wanted)
    if max(len(ours), len(theirs)) > MOST:
        return []
    return list(
        difflib.unified_diff(theirs, ours, "wanted", "found", n=around, lineterm="")
    )
