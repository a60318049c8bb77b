"""Each setup that docs/reference.md shows is accepted by `check`, and each text of
refused_texts.md is refused by the line that it names."""
from __future__ import annotations

from pathlib import Path

import pytest

import running
from outside import setups

ASKED = [
    *setups.accepted(), *setups.measured(), *setups.refused(), *setups.refused_by_commands(),
    *setups.other_texts()
]


@pytest.mark.parametrize("asked", [asked for _, asked in ASKED], ids=[what for what, _ in ASKED])
def test_answer(asked: setups.Asked, program: Path, room: Path) -> None:
    for name, text in {
        "tcp.ddd": b"1\n6 0 0 262144\n", "t.txt": b"1\n8\n8\n", **asked.files
    }.items():
        (room / name).write_bytes(text)
    done, why = running.run([program, *asked.words], cwd=room)
    assert done is not None, why
    assert (done.returncode, done.stdout.decode(), done.stderr) == (
        asked.status, asked.printed, b""
    )
