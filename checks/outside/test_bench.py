"""What fails of the benchmark's figures is said with its bound."""
from __future__ import annotations

import sys

import pytest

from places import TOP

sys.path.append(str(TOP / "bench"))

import bounds  # noqa: E402

TABLE = """
## Bounds

| Figure | Measured | At most | Holds |
|---|---|---|---|
| time | 0.90 | 1.00 | yes |
| memory | 1.08 | 1.00 | within a tenth |
| instructions | 1,761 | 1,600 | no |
| more | - | 1.00 | not measured |
"""


def test_a_figure_that_fails_has_its_bound(capsys: pytest.CaptureFixture[str]) -> None:
    most = {"time": 1.0, "memory": 1.0, "instructions": 1600, "more": 1.0}
    failures = bounds.passed_bounds(most, {"time": 0.9, "memory": 1.08, "instructions": 1761})
    assert failures == ["instructions: 1,761, and at most 1,600 is wanted"]
    assert capsys.readouterr().out == TABLE
