"""install.sh puts program, tools, man pages, completion and documents in place, and they work
there from any folder."""
from __future__ import annotations

import os
import re
import shutil
import subprocess
import sys
from collections.abc import Iterator
from dataclasses import dataclass
from pathlib import Path

import pytest

import running
from conftest import new_room
from places import PROGRAMS, RINGSIZE, TOP

pytestmark = pytest.mark.xdist_group("install")  # it is installed once

TOOLS = [
    f"ringtap-{name}"
    for name in (
        "beside", "blocks", "busiest", "long", "lost", "report", "ring-of", "run", "schedule",
        "size", "timeline",
    )
]
PAGES = ["ringtap", "ringsize", *TOOLS]


def install(program: Path, *words: object) -> subprocess.CompletedProcess:
    environment = {**os.environ, "RINGTAP": str(program), "RINGSIZE": str(RINGSIZE)}
    return subprocess.run(
        ["sh", TOP / "install.sh", *words], env=environment, capture_output=True, text=True,
        check=False
    )


@dataclass(frozen=True)
class Installed:
    """A prefix, and a folder beside which the demo lies; the repository isn't needed any more."""

    prefix: Path
    folder: Path

    def run(self, name: str, *words: str, **how: object) -> subprocess.CompletedProcess:
        done, why = running.run(
            [self.prefix / "bin" / name, *words], cwd=self.folder, text=True, **how
        )
        assert done is not None, why
        return done


@pytest.fixture(scope="module")
def installed() -> Iterator[Installed]:
    """Installed twice, as over an earlier release."""
    for room in new_room():
        for _ in range(2):
            done = install(PROGRAMS[0], room / "prefix")
            assert done.returncode == 0, done.stderr
        shutil.copytree(TOP / "demo", room / "demo")
        (room / "else").mkdir()
        shutil.copy(TOP / "demo/lo.pcap", room / "else")
        (room / "else/small.txt").write_text(
            (TOP / "demo/small.txt").read_text().replace("demo/", "")
        )
        yield Installed(room / "prefix", room / "else")


def test_install_needs_a_prefix(first_program: Path) -> None:
    done = install(first_program)
    assert done.returncode != 0
    assert done.stderr.startswith("usage:")


def test_install_needs_a_program(room: Path) -> None:
    done = install(room / "none", room / "prefix")
    assert done.returncode != 0
    assert "isn't there" in done.stderr
    assert not (room / "prefix").exists()


def test_tools_are_installed(installed: Installed) -> None:
    assert sorted(path.name for path in (installed.prefix / "bin").glob("ringtap-*")) == TOOLS


@pytest.mark.parametrize("name", TOOLS)
def test_a_tool_says_its_version_and_help(name: str, installed: Installed) -> None:
    """Help within 79 columns, with an example; the tool runs where python3 takes nothing from
    the environment."""
    assert re.match(rf"{name} \(ringtap\) [0-9]", installed.run(name, "--version").stdout)
    words = [sys.executable, "-I", "-B", installed.prefix / "bin" / name, "--help"]
    done = subprocess.run(words, cwd=installed.folder, capture_output=True, text=True, check=True)
    assert [line for line in done.stdout.split("\n") if len(line) > 79] == []
    assert "\nexample:\n" in done.stdout


def page(installed: Installed, name: str) -> Path:
    return installed.prefix / "share/man/man1" / f"{name}.1"


@pytest.mark.parametrize("name", PAGES)
def test_a_man_page_has_its_date_and_version(name: str, installed: Installed) -> None:
    head = rf'^\.TH {re.escape(name.upper())} 1 "\d{{4}}-\d\d-\d\d" "ringtap [0-9.]+"$'
    assert re.search(head, page(installed, name).read_text(encoding="utf-8"), re.M)


@pytest.mark.needs("mandoc")
@pytest.mark.parametrize("name", PAGES)
def test_mandoc_takes_a_page(name: str, installed: Installed) -> None:
    done = subprocess.run(
        ["mandoc", "-T", "lint", "-W", "warning", page(installed, name)], capture_output=True,
        text=True, check=False
    )
    assert (done.stdout + done.stderr, done.returncode) == ("", 0)


@pytest.mark.needs("groff")
@pytest.mark.parametrize("name", PAGES)
def test_groff_takes_a_page(name: str, installed: Installed) -> None:
    """Bold letters come out as a letter, a backspace and the letter again."""
    words = ["groff", "-man", "-Tascii", "-ww", page(installed, name)]
    done = subprocess.run(
        words, capture_output=True, text=True, check=True, env={**os.environ, "GROFF_NO_SGR": "1"}
    )
    assert done.stderr == ""
    if name == "ringtap":
        assert "ringtap replay CONF SCHED" in re.sub(".\b", "", done.stdout)


def test_the_program(installed: Installed) -> None:
    done = installed.run("ringtap", "replay", "small.txt", "../demo/schedule.txt")
    assert done.stdout == (TOP / "demo/expected/small/lines.txt").read_text()


def test_the_other_program(installed: Installed) -> None:
    (installed.folder / "reader.txt").write_text("pause 10\n")
    done = installed.run("ringsize", "small.txt", "reader.txt")
    assert re.search(r"^group blocks 6 phase \d from \d$", done.stdout, re.M), done.stdout


# Each tool finds the installed program, and the reference beside it.
@pytest.mark.parametrize(
    ("words", "pattern"),
    [
        ("ringtap-lost small.txt ../demo/schedule.txt", r"^  0 *45-52 *8 "),
        (
            "ringtap-timeline small.txt ../demo/schedule.txt",
            r"frame 17 doesn't fit: block 1 is retired, block 2 is opened"
        ),
        ("ringtap-schedule small.txt --tick 0", r"\A(feed 0\n){52}"),
        ("ringtap-blocks ../demo/expected/group/group.0.blk --short", r"^4 blocks, 40 packets"),
        ("ringtap-size small.txt --block-nr 2,64", r""),
    ]
)
def test_a_tool_runs(words: str, pattern: str, installed: Installed) -> None:
    done = installed.run(*words.split())
    assert done.returncode == 0, done.stderr
    assert re.search(pattern, done.stdout, re.M), done.stdout


def test_the_reference_is_found(installed: Installed) -> None:
    """A refused filter is explained by its row."""
    (installed.folder / "bad.ddd").write_text("1\n6 0 1\n")
    (installed.folder / "bad.txt").write_text(
        (installed.folder / "small.txt").read_text() + "filter bad.ddd\n"
    )
    done = installed.run("ringtap-run", "check", "bad.txt")
    assert done.returncode == 3
    assert re.search(r'^bad\.ddd, line 2: "6 0 1": .*; ', done.stderr, re.M), done.stderr


# The words so far, the last of which is being written, and what bash offers.
OFFERED = [
    (["ringtap", "re"], "replay replay2"), (["ringtap", "replay", "demo/sm"], "demo/small.txt"),
    (["ringtap", "check", "a", "demo/sm"], "")
]


@pytest.mark.parametrize(("words", "offered"), OFFERED)
def test_completion(words: list[str], offered: str, installed: Installed) -> None:
    script = (
        'source "$0"; COMP_WORDS=("$@"); COMP_CWORD=$(($# - 1)); _ringtap ringtap "${!#}"; echo '
        '"${COMPREPLY[*]}"'
    )
    completion = installed.prefix / "share/bash-completion/completions/ringtap"
    done = subprocess.run(
        ["bash", "-c", script, completion, *words], cwd=TOP, capture_output=True, text=True,
        check=True
    )
    assert done.stdout == offered + "\n"
