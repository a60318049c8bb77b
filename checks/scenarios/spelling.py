"""Words that differ in one letter, for a question after a word that isn't known."""
from __future__ import annotations

from collections.abc import Iterable


def is_near(word: str, other: str) -> bool:
    """Whether one letter differs: another one, one more, one less, or two beside each other that
    have changed places."""
    at = next(
        (at for at, (a, b) in enumerate(zip(word, other)) if a != b), min(len(word), len(other))
    )
    word, other = word[at:], other[at:]
    is_one_off = word[1:] in (other, other[1:]) or word == other[1:]
    return word != other and (is_one_off or word[1::-1] + word[2:] == other)


def meant(word: str, known: Iterable[str]) -> str:
    """A question that names the first word that is near, where one of more than two letters is."""
    near = next((other for other in known if len(other) > 2 and is_near(word, other)), None)
    return f'; "{near}" is meant?' if near else ""
