"""Each value that a script of this folder computes stands in the test of a crate that compares
with it."""
from __future__ import annotations

import subprocess
import sys
from pathlib import Path

import pytest

from places import TOP
from second import filter_verdicts

SCRIPTS = sorted(
    path.stem
    for path in Path(__file__).parent.glob("*_values.py") if path.stem != "test_values"
)


@pytest.mark.parametrize("name", SCRIPTS)
def test_values_stand_in_tests(name: str) -> None:
    words = [sys.executable, "-B", "-m", f"second.{name}"]
    rows = subprocess.run(
        words, cwd=TOP / "checks", capture_output=True, text=True, check=True
    ).stdout.splitlines()
    assert rows
    lacking = [
        row
        for row in rows
        if row.partition("\t")[2] not in (TOP / row.partition("\t")[0]).read_text(encoding="utf-8")
    ]
    assert lacking == []


def test_filter_verdicts(monkeypatch: pytest.MonkeyPatch) -> None:
    """Each verdict that the tests of the filter compare with is what the documented meaning of
    its program gives."""
    monkeypatch.chdir(TOP)
    rows = [*filter_verdicts.test_rows(), *filter_verdicts.table_rows()]
    assert rows
    found = {name: filter_verdicts.verdict(code, packet) for code, packet, _, name in rows}
    assert found == {name: expected for _, _, expected, name in rows}
