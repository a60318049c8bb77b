"""The documents: each word, line and status of the program is in docs/reference.md, each command
of README.md and docs/guide.md prints what stands below it, links lead somewhere, names of code
are names of the sources, each library's example stands in a source, and docs/definitions.md and
the table of crates in CONTRIBUTING.md are what they give."""
from __future__ import annotations

import shutil
import subprocess
import sys
from pathlib import Path

import pytest

from outside import definitions, documents
from places import RINGSIZE, TOP


@pytest.mark.parametrize("look", [
    documents.words, documents.links, documents.names, documents.examples
])
def test_documents(look: documents.Look) -> None:
    found, wrong = look()
    assert wrong == []
    assert found > 0


def test_definitions() -> None:
    """`python3 checks/definitions.py --write` makes the page anew."""
    assert definitions.PAGE.read_text(encoding="utf-8") == definitions.page()


def test_crates_above() -> None:
    """`python3 checks/crates_above.py --write` makes the table anew."""
    words = [sys.executable, "-B", TOP / "checks/crates_above.py"]
    done = subprocess.run(words, cwd=TOP, capture_output=True, text=True)
    assert done.returncode == 0, done.stdout + done.stderr


@pytest.mark.needs("tcpdump", "awk", "gzip")
@pytest.mark.parametrize("name", ["README.md", "docs/guide.md"])
def test_commands(name: str, program: Path, room: Path) -> None:
    """Those of a document, one after another, since each may use the files of those before it."""
    here = room / "here"
    (here / "bin").mkdir(parents=True)
    (here / "try").mkdir()
    for part in ("demo", "tools"):
        shutil.copytree(TOP / part, here / part, symlinks=True)
    for name_in_bin, built in (("ringtap", program), ("ringsize", RINGSIZE)):
        shutil.copy(built, here / "bin" / name_in_bin)
        (here / "bin" / name_in_bin).chmod(0o755)
    # tcpdump gives up its rights before it writes, where root runs it
    for folder in (here, here / "try"):
        folder.chmod(0o777)
    folder = here if name == "README.md" else here / "try"
    commands = documents.steps((TOP / name).read_text(encoding="utf-8"))
    assert commands
    for command, lines in commands:
        assert documents.differs(command, lines, str(folder), str(here / "bin/ringtap")) is None
