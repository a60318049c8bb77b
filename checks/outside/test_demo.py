"""The demo prints and saves what stands in demo/expected, which the second program works out;
and its scripts build and run."""
from __future__ import annotations

import os
import shutil
import subprocess
from pathlib import Path

import pytest

import running
from places import RINGSIZE, TOP
from second import program as second_program

EXPECTED = TOP / "demo" / "expected"
# An `rt` that proves nothing: it marks the libraries as proved and copies the program that there
# is, or runs it as `rt try` would, in the crate's folder.
FAKE_RT = r"""#!/usr/bin/env bash
top=../..
if [ "$1" = try ]; then
    while [ "$1" != -- ]; do shift; done
    shift
    exec "$PROGRAM" "$@"
fi
for crate in $(sed -n 's/^\([a-z_0-9]*\):.*/\1/p' "$top/crates.txt"); do
    mkdir -p "$top/crates/$crate/out/rlib" && touch "$top/crates/$crate/out/rlib/stamp"
done
name=$(basename "$PWD")
[ "$name" = ringtap ] || PROGRAM=$RINGSIZE
cp "$PROGRAM" "out/$name" && exec "out/$name" "${@:3}"
"""


def expected(name: str) -> dict[str, bytes]:
    return {path.name: path.read_bytes() for path in (EXPECTED / name).iterdir()}


@pytest.mark.parametrize("name", second_program.DEMO)
def test_demo(name: str, program: Path, room: Path) -> None:
    """Its setup is accepted, and it prints and saves what is expected, and nothing else."""
    shutil.copytree(TOP / "demo", room / "demo")
    checked, why = running.run([program, "check", f"demo/{name}.txt"], cwd=room)
    assert checked is not None, why
    assert (checked.stdout, checked.returncode) == (b"ok\n", 0)
    done, why = running.run([program, *second_program.DEMO[name]], cwd=room)
    assert done is not None, why
    assert done.returncode == 0
    files = {path.name: path.read_bytes() for path in room.iterdir() if path.is_file()}
    assert {**files, "lines.txt": done.stdout} == expected(name)


@pytest.mark.parametrize("name", second_program.DEMO)
def test_demo_by_the_second_program(name: str, monkeypatch: pytest.MonkeyPatch) -> None:
    monkeypatch.chdir(TOP)
    lines, files = second_program.run(*second_program.DEMO[name])
    assert {**files, "lines.txt": lines.encode()} == expected(name)


@pytest.fixture
def copy(room: Path, first_program: Path) -> Path:
    """A copy in which the scripts run, with another `rt`."""
    shutil.copytree(TOP / "demo", room / "demo")
    shutil.copy(TOP / "crates.txt", room)
    for name in ("ringtap", "ringsize"):
        (room / "crates" / name).mkdir(parents=True)
    (room / "fake").mkdir()
    (room / "fake" / "rt").write_text(FAKE_RT)
    (room / "fake" / "rt").chmod(0o755)
    return room


def script(copy: Path, program: Path, *words: str) -> subprocess.CompletedProcess:
    """A script of demo/ in the copy."""
    environment = {
        **os.environ,
        "PATH": f"{copy}/fake:{os.environ['PATH']}",
        "PROGRAM": str(program),
        "RINGSIZE": str(RINGSIZE),
    }
    done, why = running.run(["sh", *words], cwd=copy, env=environment, text=True)
    assert done is not None, why
    return done


def shows(copy: Path, name: str, done: subprocess.CompletedProcess) -> None:
    """A demo that was run has the lines at its end, and its files."""
    assert done.returncode == 0, done.stderr
    lines = (EXPECTED / name / "lines.txt").read_text()
    assert done.stdout.endswith("\n" + lines)
    for path in (EXPECTED / name).glob("*.pcap"):
        assert (copy / path.name).read_bytes() == path.read_bytes(), path.name


def test_an_unknown_demo(copy: Path, first_program: Path) -> None:
    done = script(copy, first_program, "demo/run.sh", "nothing")
    assert done.returncode != 0
    assert done.stderr.startswith("usage:")


@pytest.mark.parametrize("name", ["setup", "group", "send"])
def test_an_unproved_try(name: str, copy: Path, first_program: Path) -> None:
    done = script(copy, first_program, "demo/run.sh", name)
    shows(copy, name, done)
    assert done.stderr.startswith("unproved try")


def test_build(copy: Path, first_program: Path) -> None:
    """It says how far it is, makes links to the programs, and what is built isn't tried
    unproved."""
    done = script(copy, first_program, "demo/build.sh")
    assert done.returncode == 0, done.stderr
    assert " libraries are proved" in done.stderr and " min so far\n" in done.stderr
    for name in ("ringtap", "ringsize"):
        link = copy / "bin" / name
        assert link.resolve() == (copy / "crates" / name / "out" / name).resolve()
    done = script(copy, first_program, "demo/run.sh", "small")
    shows(copy, "small", done)
    assert "unproved" not in done.stderr
