"""What all checks have in common: the programs, a folder of a test's own, and what a test needs
of the machine.

A test that needs a command, a module or a right says so by `@pytest.mark.needs("tcpdump")`, and
is skipped where that isn't there. With `CI` set nothing else skips: a test or a file that leaves
itself out though its needs are there fails, with its reason.
"""
from __future__ import annotations

import os
import re
import shutil
import subprocess
import tempfile
from collections.abc import Iterator
from pathlib import Path

import pytest

import rights
from differing import diff
from places import PROGRAMS, RINGSIZE, UNBUILT


def built(program: Path) -> Path:
    """A program that is there."""
    if program == UNBUILT:
        pytest.fail("no program is built: `sh demo/build.sh` builds one, and RINGTAP names another")
    return program


def pytest_addoption(parser: pytest.Parser) -> None:
    parser.addoption(
        "--setups", type=int, default=8, help="how many small setups ringsize is asked about"
    )


def pytest_configure(config: pytest.Config) -> None:
    for line in (
        "needs(what, ..): commands, modules and rights without which the test is skipped",
        "xdist_group(name): tests for which something is made once, so one process has them all",
    ):
        config.addinivalue_line("markers", line)


def pytest_generate_tests(metafunc: pytest.Metafunc) -> None:
    """A test of `program` is one for each of them."""
    if "program" in metafunc.fixturenames:
        metafunc.parametrize(
            "program", PROGRAMS, ids=[path.name for path in PROGRAMS], indirect=True,
            scope="session"
        )


@pytest.fixture(scope="session")
def program(request: pytest.FixtureRequest) -> Path:
    """A program to check, each in turn."""
    return built(request.param)


@pytest.fixture(scope="session")
def first_program() -> Path:
    """The first of them, for what doesn't depend on the compiler."""
    return built(PROGRAMS[0])


@pytest.fixture(scope="session")
def sizer() -> Path:
    """The other program, ringsize."""
    if not os.access(RINGSIZE, os.X_OK):
        pytest.fail(f"{RINGSIZE} isn't built: `sh demo/build.sh` builds it")
    return RINGSIZE


def new_room() -> Iterator[Path]:
    room = Path(tempfile.mkdtemp(prefix="ringtap-check-"))
    room.chmod(0o755)
    yield room
    subprocess.run(["chmod", "-R", "u+rwx", room], check=False)
    shutil.rmtree(room)


@pytest.fixture
def room() -> Iterator[Path]:
    """A folder of the test's own, into which every user may look; gone at its end with all that
    is in it."""
    yield from new_room()


@pytest.fixture
def inside(room: Path, monkeypatch: pytest.MonkeyPatch) -> Path:
    """That folder, and the test runs in it."""
    monkeypatch.chdir(room)
    return room


# ---- what differs

differing_lines: list[str] = []  # of the last comparison that failed


def pytest_assertrepr_compare(op: str, left: object, right: object) -> None:
    """Keeps a diff of lines, which is shown below the failure whole."""
    if op == "==":
        differing_lines[:] = diff(left, right)


# ---- what is skipped

lacking: set[str] = set()  # one line for each need that isn't there


def pytest_runtest_setup(item: pytest.Item) -> None:
    for mark in item.iter_markers("needs"):
        for what in mark.args:
            if why := rights.lack(what):
                pytest.skip(f"needs {what}: {why}")


Report = pytest.TestReport | pytest.CollectReport


def reason(report: Report) -> str:
    """Why a test or a file was skipped."""
    why = report.longrepr[2] if isinstance(report.longrepr, tuple) else str(report.longrepr)
    return why.removeprefix("Skipped: ")


def refuse_unexplained(report: Report) -> None:
    """With CI set a skip is a failure but where it names a need, as `needs tcpdump: ..`, that
    isn't there."""
    if not report.skipped or not os.environ.get("CI") or hasattr(report, "wasxfail"):
        return
    why = reason(report)
    need = re.match(r"needs (.+?): ", why)
    if not need or rights.lack(need[1]) is None:
        report.outcome = "failed"
        told = "leaves itself out, though what it needs is there"
        report.longrepr = f"{report.nodeid} {told}: {why}"


@pytest.hookimpl(hookwrapper=True)
def pytest_runtest_makereport() -> Iterator[None]:
    report = (yield).get_result()
    refuse_unexplained(report)
    if report.failed and differing_lines:
        report.sections.append(("what differs", "\n".join(differing_lines)))
    differing_lines.clear()


@pytest.hookimpl(hookwrapper=True)
def pytest_make_collect_report() -> Iterator[None]:
    refuse_unexplained((yield).get_result())


def pytest_terminal_summary(terminalreporter: pytest.TerminalReporter) -> None:
    """One line for each reason for which something was skipped, and one of sums."""
    counts: dict[str, int] = {}
    for report in terminalreporter.stats.get("skipped", []):
        counts[reason(report)] = counts.get(reason(report), 0) + 1
    for why, count in sorted(counts.items()):
        terminalreporter.write_line(f"skipped: {count} {'checks' if count > 1 else 'check'}: {why}")
    found = {
        kind: len(terminalreporter.stats.get(kind, []))
        for kind in ("passed", "failed", "error")
    }
    failed = found["failed"] + found["error"]
    terminalreporter.write_line(
        f"checks: {found['passed']} passed, {failed} failed, {sum(counts.values())} skipped"
    )
