"""ringsize over real files, devices and pipes: each fault of the outside gives its status and its
line, each text that is refused its line, and no run saves anything."""
from __future__ import annotations

import os
import re
import shutil
import subprocess
import threading
from dataclasses import dataclass
from pathlib import Path

import pytest

import running
from outside.refusing import Refusing
from outside.test_files import UNREADABLE, Run, drip
from places import TOP
from second.capture_frames import frames_of

DATA = TOP / "crates/ringsize/data"
WHOLE = (TOP / "crates/ringsize/stdout").read_text()
# What a capture without a frame gives, where it ends so.
EMPTY = """cpu 0 frames 0 arrivals 0 end {}
member 0 blocks 2 phase 0 from 0
group blocks 2 phase 0 from 0
member 0 drops least 0 phase 0 from 0 most 0 phase 0 from 0
total drops least 0 phase 0 from 0 most 0 phase 0 from 0
"""
SHORT = "pause 3\n"
# The lines of a reader, and what is said of them.
REFUSED = [
    ("pause", 1, "bad_line"), ("pause 1 2", 1, "bad_line"), ("slots 1", 1, "bad_line"),
    ("sleep 1", 1, "unknown_word"), ("phases some", 1, "unknown_word"),
    ("pause 0", 1, "bad_number"), ("blocks 0", 1, "bad_number"), ("pause x", 1, "bad_number"),
    ("stall 1 0", 1, "bad_number"), ("pause 1\nphase 8", 2, "bad_number"),
    ("pause 1\nblocks 2", 2, "twice"), ("phase 0\nphases all", 2, "twice"),
    ("from 0\nfrom all", 2, "twice"), ("pause 1\nmore 1 b.pcap", 2, "no_such_cpu"),
    ("", 0, "missing"), ("stall 1 1", 0, "missing"), ("pause 5\nfrom 5", 0, "bad_from"),
    ("poll 1\nfrom 0", 0, "bad_from"), ("pause 1\nslots\nphases all", 0, "bad_phase"),
]


@dataclass
class Here:
    """A folder with a setup, a reader's text and a capture that are in order."""

    path: Path
    sizer: Path

    def run(self, conf: str = "setup.txt", reader: str = "reader.txt", **how: object) -> Run:
        before = set(self.path.iterdir())
        done, why = running.run([self.sizer, conf, reader], cwd=self.path, **how)
        assert done is not None, why
        assert done.stderr == b""
        assert set(self.path.iterdir()) == before
        return Run(done.stdout.decode(), done.returncode)

    def write(self, name: str, text: str) -> str:
        (self.path / name).write_text(text)
        return name

    def conf(self, old: str, new: str) -> str:
        return self.write("other.txt", (DATA / "setup.txt").read_text().replace(old, new))


@pytest.fixture
def here(room: Path, sizer: Path) -> Here:
    shutil.copytree(DATA, room, dirs_exist_ok=True)
    return Here(room, sizer)


def test_the_stored_run(here: Here) -> None:
    assert here.run() == Run(WHOLE, int((TOP / "crates/ringsize/status").read_text()))


@pytest.mark.parametrize("words", [[], ["setup.txt"], ["setup.txt", "reader.txt", "more"]])
def test_usage(words: list[str], here: Here) -> None:
    done, _ = running.run([here.sizer, *words], cwd=here.path, text=True)
    assert (done.stdout, done.returncode) == ("usage: ringsize CONF READER\n", 1)


# ---- texts


@pytest.mark.parametrize("name", [*UNREADABLE, "/proc/self/mem"])
def test_texts_that_cant_be_read(name: str, here: Here) -> None:
    assert here.run(conf=name) == Run("read fault\n", 5)
    assert here.run(reader=name) == Run("read fault\n", 5)
    conf = here.conf("cpu ", f"filter {name}\ncpu ")
    assert here.run(conf=conf) == Run("read fault\n", 5)


def test_texts_without_end(here: Here) -> None:
    assert here.run(conf="/dev/zero") == Run("setup line 0: too_large\n", 2)
    assert here.run(reader="/dev/zero") == Run("reader line 0: too_large\n", 3)
    assert here.run(conf=here.conf("cpu ", "filter /dev/zero\ncpu ")) == Run(
        "filter line 0: too_large\n", 3
    )


def test_a_setup_that_is_refused(here: Here) -> None:
    assert here.run(conf=here.conf("block_nr 2", "blok_nr 2")) == Run(
        "setup line 2: unknown_word\n", 2
    )


def test_the_setup_is_refused_before_the_reader(here: Here) -> None:
    here.write("reader.txt", "sleep 1\n")
    assert here.run(conf=here.conf("block_nr 2", "blok_nr 2")) == Run(
        "setup line 2: unknown_word\n", 2
    )


def test_slots_want_a_setup_of_replay2(here: Here) -> None:
    """A ring of TPACKET_V2 has no time-out, whatever else the reader's text says."""
    timed = here.conf("cpu ", "tov 5\ncpu ")
    for lines in ("pause 3\nslots\n", "sleep 1\n\tslots \n"):
        here.write("reader.txt", lines)
        assert here.run(conf=timed) == Run("setup line 0: request transmit\n", 2)
    for lines in ("pause 3\n", "pause 3\n# slots\n#slots\n"):
        here.write("reader.txt", lines)
        assert here.run(conf=timed).status == 0


def test_slots_of_a_capture_without_a_frame(here: Here) -> None:
    here.write("reader.txt", "pause 3\nslots\n")
    assert here.run(conf=here.conf("burst.pcap", "/dev/null")) == Run(
        EMPTY.format("truncated 0").replace("blocks", "slots"), 4
    )


@pytest.mark.parametrize(("lines", "line", "kind"), REFUSED)
def test_a_reader_that_is_refused(lines: str, line: int, kind: str, here: Here) -> None:
    here.write("reader.txt", f"{lines}\n" * bool(lines))
    assert here.run() == Run(f"reader line {line}: {kind}\n", 3)


# ---- captures


@pytest.mark.parametrize(
    ("name", "end", "status"),
    [
        *((name, "fault", 5) for name in [*UNREADABLE, "/proc/self/mem"]),
        ("/dev/null", "truncated 0", 4), ("/dev/zero", "bad_magic 0", 4),
    ]
)
def test_captures_that_give_nothing(name: str, end: str, status: int, here: Here) -> None:
    here.write("reader.txt", SHORT)
    assert here.run(conf=here.conf("burst.pcap", name)) == Run(EMPTY.format(end), status)


def test_a_capture_that_is_cut(here: Here) -> None:
    """The frames before the cut count."""
    data = (DATA / "burst.pcap").read_bytes()
    (here.path / "burst.pcap").write_bytes(data[:-1])
    run = here.run()
    _, end = frames_of(data[:-1])
    assert run.printed.splitlines()[0] == f"cpu 0 frames 6 arrivals 6 end {end}"
    assert run.status == 4


def test_files_that_come_one_byte_at_a_time(here: Here) -> None:
    here.write("reader.txt", SHORT)
    whole = here.run()
    for name in ("setup.txt", "reader.txt", "burst.pcap"):
        data = (here.path / name).read_bytes()
        (here.path / name).unlink()
        os.mkfifo(here.path / name)
        threading.Thread(target=drip, args=(here.path / name, data), daemon=True).start()
    assert here.run() == whole


# ---- printing, and what fails outside


@pytest.mark.parametrize("reader", ["reader.txt", "none"])
def test_standard_output_that_takes_nothing(reader: str, here: Here) -> None:
    """It is full, closed, or a pipe without a reader."""
    here.write("reader.txt", SHORT)
    words = [str(here.sizer), "setup.txt", reader]
    front, back = os.pipe()
    os.close(front)
    with open("/dev/full", "wb") as full:
        for output in (full, back):
            assert subprocess.run(words, cwd=here.path, stdout=output, check=False).returncode == 6
    os.close(back)
    closed = ["sh", "-c", 'exec "$@" >&-', "-", *words]
    assert subprocess.run(closed, cwd=here.path, check=False).returncode == 6


@pytest.mark.needs("cc")
def test_interrupted_calls(here: Here) -> None:
    here.write("reader.txt", SHORT)
    whole, source = here.run(), Path(__file__).parent / "interrupt.c"
    library = here.path / "interrupt.so"
    subprocess.run(["cc", "-shared", "-fPIC", "-o", library, source, "-ldl"], check=True)
    often = {"OPENS": "15", "READS": "15", "WRITES": "15", "LD_PRELOAD": str(library)}
    assert here.run(env={**os.environ, **often}) == whole


@pytest.mark.needs("cc")
def test_refused_memory(here: Here) -> None:
    """Each request in turn: the lines, or some of them and the line that says so."""
    here.write("reader.txt", SHORT)
    refusing = Refusing(here.path, here.sizer)
    ample, number = refusing.run("setup.txt reader.txt"), 0
    for number, ended in refusing.each("setup.txt reader.txt", "REFUSED", []):
        if ended.status == 7:
            before = ended.lines.removesuffix("out of memory\n")
            assert before != ended.lines and ample.lines.startswith(before), f"request {number}"
        else:
            assert ended == ample, f"request {number}"
    assert number >= 20


@pytest.mark.needs("cc")
def test_each_read_that_fails(here: Here) -> None:
    """A text's: nothing but that. A capture's: its line says so, every file has one, and the rings
    are those of what was read."""
    here.write("reader.txt", SHORT + "more 0 burst.pcap\n")
    refusing, number = Refusing(here.path, here.sizer), 0
    ample, faults = refusing.run("setup.txt reader.txt"), []
    for number, ended in refusing.each("setup.txt reader.txt", "FAILED_READ", []):
        assert ended.status == 5, f"read {number}"
        if ended.lines != "read fault\n":
            ends = re.findall(r"^cpu 0 .* end (.*)$", ended.lines, re.M)
            faults.append(ends)
            assert len(ended.lines.splitlines()) == len(ample.lines.splitlines()), f"read {number}"
    assert number >= 6
    # each file has a read of bytes and one that finds its end
    assert faults == [["fault", "ok"]] * 2 + [["ok", "fault"]] * 2


@pytest.mark.needs("cc")
def test_each_write_that_fails(here: Here) -> None:
    here.write("reader.txt", SHORT)
    refusing = Refusing(here.path, here.sizer)
    runs = list(refusing.each("setup.txt reader.txt", "FAILED_WRITE", []))
    assert [(ended.status, ended.lines) for _, ended in runs] == [(6, "")]
