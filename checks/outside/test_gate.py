""".ci/run has the checks run where the proofs passed, and answers as it has to; with CI set no
check leaves itself out, and what differs in one is shown as a diff of lines."""
from __future__ import annotations

import os
import shutil
import subprocess
import sys
from pathlib import Path

import pytest

from places import TOP

# The stubs write down that they were called, and end as they are told.
STUBS = {
    "rt": 'echo "rt $*" >>called\necho "rt: ok"\necho "3 passed, $RT failed"\nexit "$RT"\n',
    "checks/needs.sh": 'echo "needs.sh $*" >>called\necho "needs.sh: missing here: valgrind"\n',
    "checks/run.sh": 'echo "run.sh CI=$CI" >>called\necho "checks: some"\nexit "$CHECKS"\n',
}


@pytest.mark.parametrize(
    ("proofs", "checks", "status", "called"),
    [
        (0, 0, 0, ["rt ci", "needs.sh --install --light", "run.sh CI=gate"]),
        (0, 1, 1, ["rt ci", "needs.sh --install --light", "run.sh CI=gate"]),
        (2, 0, 2, ["rt ci"]),
    ]
)
def test_gate(proofs: int, checks: int, status: int, called: list[str], room: Path) -> None:
    """Its last line is that of `rt ci`, its status too, or 1 where a check failed."""
    for name, text in STUBS.items():
        path = room / name
        path.parent.mkdir(exist_ok=True)
        path.write_text("#!/bin/sh\n" + text)
        path.chmod(0o755)
    (room / ".ci").mkdir()
    shutil.copy(TOP / ".ci/run", room / ".ci")
    environment = {
        **os.environ, "PATH": f"{room}:{os.environ['PATH']}", "RT": str(proofs),
        "CHECKS": str(checks)
    }
    environment.pop("CI", None)
    done = subprocess.run(
        ["bash", room / ".ci/run"], cwd="/", env=environment, capture_output=True, text=True,
        check=False
    )
    assert done.returncode == status
    assert done.stdout.splitlines()[-1] == f"3 passed, {proofs} failed"
    assert ("needs.sh: missing here: valgrind" in done.stdout.splitlines()[-2:]) == (proofs == 0)
    assert (room / "called").read_text().splitlines() == called


def test_nothing_needs_xdist() -> None:
    """Where it isn't there the tests are found all the same."""
    words = ["-q", "--collect-only", "-p", "no:xdist", "-p", "no:cacheprovider"]
    done = subprocess.run(
        [sys.executable, "-B", "-m", "pytest", *words, "checks/kernel", "checks/outside"], cwd=TOP,
        capture_output=True, text=True, check=False
    )
    assert done.returncode == 0, done.stdout


SKIPPING = '''
import pytest


@pytest.mark.needs("no-such-command")
def test_without_its_need():
    assert False


@pytest.mark.needs("sh")
def test_that_leaves_itself_out():
    pytest.skip("it is Sunday")


@pytest.mark.needs("sh")
def test_that_names_what_is_there():
    pytest.skip("needs sh: it is Sunday")


def test_that_passes():
    pass
'''
SKIPPING_FILE = 'import pytest\n\npytest.skip("it is Monday", allow_module_level=True)\n'
LACKING = "skipped: 1 check: needs no-such-command: it isn't here (checks/needs.sh)"


def run_tests(room: Path, texts: dict[str, str], ci: str = "") -> subprocess.CompletedProcess:
    """A run of files of tests, by the settings of these checks."""
    for name, text in texts.items():
        (room / name).write_text(text)
    words = ["-q", "-p", "conftest", "-p", "no:cacheprovider", "-c", TOP / "setup.cfg"]
    words += ["--continue-on-collection-errors", f"--rootdir={room}", *texts]
    return subprocess.run(
        [sys.executable, "-B", "-m", "pytest", *words], cwd=room,
        env={**os.environ, "PYTHONPATH": str(TOP / "checks"), "CI": ci}, capture_output=True,
        text=True, check=False
    )


def skipping(room: Path, ci: str) -> subprocess.CompletedProcess:
    """Four tests, of which three leave themselves out, and a file that does."""
    return run_tests(room, {"test_some.py": SKIPPING, "test_whole.py": SKIPPING_FILE}, ci)


def test_a_skip_is_said(room: Path) -> None:
    lines = skipping(room, "").stdout.splitlines()
    reasons = {"it is Sunday", "it is Monday", "needs sh: it is Sunday"}
    assert {LACKING, *(f"skipped: 1 check: {why}" for why in reasons)} <= {*lines}
    assert "checks: 1 passed, 0 failed, 4 skipped" in lines


def test_in_the_gate_a_skip_needs_a_need(room: Path) -> None:
    """A need that isn't there; one that is there explains nothing."""
    done = skipping(room, "gate")
    lines = done.stdout.splitlines()
    assert done.returncode == 1
    assert "checks: 1 passed, 3 failed, 1 skipped" in lines
    assert LACKING in lines
    said = "leaves itself out, though what it needs is there"
    assert {
        f"test_some.py::test_that_leaves_itself_out {said}: it is Sunday",
        f"test_some.py::test_that_names_what_is_there {said}: needs sh: it is Sunday",
        f"test_whole.py {said}: it is Monday",
    } <= {*lines}


DIFFERING = '''
def test_lines():
    text = "a\\n" * 50 + "b\\n" + "c\\n" * 50
    assert {"lines": text, "bytes": bytes(40)} == {
        "lines": text.replace("b", "B"), "bytes": bytes(20) + b"\\1" + bytes(19)
    }
'''
# Line 56 is the 51st of the text, which stands below four lines of bytes and its own name.
DIFF = """--- wanted
+++ found
@@ -1,5 +1,5 @@
 bytes:
   0: 00000000 00000000 00000000 00000000
-  16: 00000000 01000000 00000000 00000000
+  16: 00000000 00000000 00000000 00000000
   32: 00000000 00000000
 lines:
@@ -54,5 +54,5 @@
   a
   a
-  B
+  b
   c
   c
"""


def test_what_differs_is_a_diff_of_lines(room: Path) -> None:
    assert DIFF in run_tests(room, {"test_some.py": DIFFERING}).stdout
