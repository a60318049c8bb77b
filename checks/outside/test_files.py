"""Real files, folders, devices and pipes: each fault of the outside gives its status and its
line, and no crash.

Root reads every file, so where root runs these tests the program runs as nobody, if that can be
had.
"""
from __future__ import annotations

import os
import resource
import shutil
import signal
import struct
import subprocess
import threading
from collections.abc import Iterator
from dataclasses import dataclass
from pathlib import Path

import pytest

import rights
import running
from places import TOP
from second.program import run as worked_out

USAGE = "usage: ringtap check|replay|capture|send|make|forward|replay2 CONF [SCHED]\n"
FAULT = (
    "cpu 0 frames 0 arrivals 0 end fault\n"
    "member 0 packets 0 drops 0 freezes 0 blocks 0\n"
    "total arrivals 0 filtered 0 kept 0 drops 0\n"
)
CUT = "cpu 0 frames 2 arrivals 2 end truncated 252\n"
WHOLE_SEND = "cpu 0 frames 52 end ok\nsend sent 43 skipped 0 stop 43\n"
FAILED_SEND = "cpu 0 frames 0 end fault\nsend sent 0 skipped 0 stop none\n"
ROOMY = (TOP / "demo/expected/setup/lines.txt").read_text()  # of a ring that holds the whole demo
UNREADABLE = ["none", ".", "conf/"]  # names that no file has, or that aren't a file's
NOBODY = ["setpriv", "--reuid=65534", "--regid=65534", "--clear-groups", "--no-new-privs"]
as_nobody = NOBODY if os.getuid() == 0 and rights.lack("another user") is None else []


def setup(capture: str, *more: str) -> str:
    lines = [
        "block_size 4096", "block_nr 2", "frame_size 2048", "frame_nr 4", f"cpu {capture}", *more
    ]
    return "".join(f"{line}\n" for line in lines)


def roomy(capture: str, *more: str) -> str:
    """A setup whose ring holds the whole demo, so that nothing hangs on which thread goes first."""
    return setup(capture, *more).replace("4096", "65536").replace(
        "block_nr 2", "block_nr 4"
    ).replace("frame_nr 4", "frame_nr 128")


@dataclass
class Run:
    """What a run printed, and its status."""

    printed: str
    status: int


@dataclass
class Store:
    """A folder with a setup, a schedule and a capture that are in order, in which the program
    runs."""

    path: Path
    program: Path
    whole: str = ""  # the lines of the run without a fault
    output: bytes = b""  # and its file

    def write(self, name: str, data: str | bytes) -> Path:
        """A file of whom the program runs as."""
        path = self.path / name
        path.write_bytes(data.encode() if isinstance(data, str) else data)
        self.give(path)
        return path

    def give(self, path: Path) -> None:
        if as_nobody:
            os.chown(path, 65534, 65534)

    def read(self, name: str) -> bytes:
        return (self.path / name).read_bytes()

    def is_there(self, name: str) -> bool:
        return (self.path / name).exists()

    def conf(self, *lines: str) -> None:
        """More lines of the setup."""
        self.write("conf", self.read("conf").decode() + "".join(f"{line}\n" for line in lines))

    def run(self, *words: str | bytes, **how: object) -> Run:
        done, why = running.run([*as_nobody, self.program, *words], cwd=self.path, **how)
        assert done is not None, why
        assert done.stderr == b""
        return Run(done.stdout.decode(), done.returncode)

    def status_into(self, output: object, *words: str, **how: object) -> int:
        """The status of a run whose standard output this is."""
        done = subprocess.run(
            [*as_nobody, self.program, *words], cwd=self.path, stdout=output,
            stderr=subprocess.PIPE, timeout=600, **how
        )
        return done.returncode

    def replay(self) -> Run:
        return self.run("replay", "conf", "sched")


@pytest.fixture
def store(room: Path, program: Path) -> Store:
    mine = shutil.copy(program, room / "ringtap")
    os.chmod(mine, 0o755)
    here = room / "here"
    here.mkdir()
    found = Store(here, mine)
    found.give(here)
    found.write("in.pcap", (TOP / "demo/lo.pcap").read_bytes())
    found.write("conf", setup("in.pcap"))
    found.write("sched", "feed 0\nread 0\n")
    run = found.replay()
    assert run.status == 0
    assert "end ok\n" in run.printed
    found.whole, found.output = run.printed, found.read("out.0.pcap")
    (here / "out.0.pcap").unlink()
    return found


def full() -> object:
    return open("/dev/full", "wb")


# ---- texts


@pytest.mark.parametrize("name", UNREADABLE)
def test_texts_that_cant_be_read(store: Store, name: str) -> None:
    assert store.run("replay", name, "sched") == Run("read fault\n", 5)
    assert store.run("replay", "conf", name) == Run("read fault\n", 5)
    for command in ("make", "send", "capture"):
        assert store.run(command, name) == Run("read fault\n", 5), command
    assert not store.is_there("out.0.pcap")
    assert not store.is_there("out.tx.pcap")


@pytest.mark.parametrize(("words", "printed", "status"), [
    (["replay", "/dev/zero", "sched"], "setup line 0: too_large\n", 2),
    (["replay", "conf", "/dev/zero"], "schedule line 0: too_large\n", 3),
    (["replay", "/dev/null", "sched"], "setup line 0: missing block_size\n", 2),
    (["check", "conf"], "ok\n", 0),
    (["make", "conf"], "setup line 0: missing make\n", 2),
    (["replay", "/proc/self/mem", "sched"], "read fault\n", 5),
    (["replay", "conf", "/proc/self/mem"], "read fault\n", 5),
    (["replay", "conf", "0" * 5000], "read fault\n", 5),
])
def test_texts(store: Store, words: list[str], printed: str, status: int) -> None:
    """Devices, and files that open and then can't be read."""
    assert store.run(*words) == Run(printed, status)
    assert not store.is_there("out.0.pcap")


def test_a_schedule_that_ticks_back(store: Store) -> None:
    store.write("ticks", "tick 2\ntick 1\n")
    assert store.run("replay", "conf", "ticks") == Run("schedule line 2: not_ascending\n", 3)


def test_a_schedule_without_a_line(store: Store) -> None:
    assert store.run("replay", "conf", "/dev/null").status == 0


@pytest.mark.parametrize(("line", "printed", "status"), [
    ("filter none", "read fault\n", 5),
    ("filter /dev/zero", "filter line 0: too_large\n", 3),
    ("ticks /dev/zero", "ticks line 0: too_large\n", 3),
])
def test_texts_that_a_setup_names(store: Store, line: str, printed: str, status: int) -> None:
    store.conf(line)
    assert store.run("check", "conf") == Run(printed, status)


# ---- captures


@pytest.mark.parametrize("name", [*UNREADABLE, "/proc/self/mem"])
def test_captures_that_cant_be_read(store: Store, name: str) -> None:
    """By replay, on threads and sent: each output is a header alone."""
    store.write("conf", setup(name))
    assert store.replay() == Run(FAULT, 5)
    assert len(store.read("out.0.pcap")) == 24
    assert store.run("send", "conf") == Run(FAILED_SEND, 5)
    assert len(store.read("out.tx.pcap")) == 24
    store.write("conf", roomy(name))
    assert store.run("capture", "conf") == Run(FAULT, 5)
    assert len(store.read("out.0.pcap")) == 24


@pytest.mark.parametrize(
    ("name", "end"), [("/dev/null", "truncated 0"), ("/dev/zero", "bad_magic 0")]
)
def test_captures_of_devices(store: Store, name: str, end: str) -> None:
    store.write("conf", setup(name))
    assert store.replay() == Run(FAULT.replace("fault", end), 4)


def test_a_link_to_a_capture_that_is_gone(store: Store) -> None:
    (store.path / "lost").symlink_to("gone")
    store.write("conf", setup("lost"))
    assert store.replay() == Run(FAULT, 5)


@pytest.fixture
def endless(store: Store) -> Iterator[Store]:
    """A capture without end, as a pipe that somebody keeps writing to."""
    os.mkfifo(store.path / "pipe")
    store.give(store.path / "pipe")
    store.write("conf", setup("pipe"))
    head = struct.pack("<IHHiIII", 0xA1B2C3D4, 2, 4, 0, 0, 262144, 1)
    record = struct.pack("<IIII", 0, 0, 262144, 262144) + bytes(262144)

    def pour() -> None:
        try:
            with open(store.path / "pipe", "wb", buffering=0) as pipe:
                pipe.write(head)
                while True:
                    pipe.write(record)
        except BrokenPipeError:
            pass

    threading.Thread(target=pour, daemon=True).start()
    yield store


# 127 records of 262,144 bytes fit into what counts.
def test_a_capture_without_end(endless: Store) -> None:
    printed = (
        "cpu 0 frames 127 arrivals 127 end too_large 33554432\n"
        "member 0 packets 127 drops 125 freezes 1 blocks 2\n"
        "total arrivals 127 filtered 0 kept 2 drops 125\n"
    )
    assert endless.replay() == Run(printed, 4)


def test_a_capture_without_end_sent(endless: Store) -> None:
    assert endless.run("send", "conf") == Run(
        "cpu 0 frames 127 end too_large 33554432\nsend sent 0 skipped 0 stop 0\n", 4
    )


def test_a_capture_without_end_on_threads(endless: Store) -> None:
    run = endless.run("capture", "conf")
    assert run.status == 4
    assert run.printed.startswith("cpu 0 frames 127 arrivals 127 end too_large 33554432\n")


def test_files_that_come_one_byte_at_a_time(store: Store) -> None:
    store.write("conf", setup("slow_in"))
    for name, source in (("slow_conf", "conf"), ("slow_sched", "sched"), ("slow_in", "in.pcap")):
        os.mkfifo(store.path / name)
        store.give(store.path / name)
        threading.Thread(
            target=drip, args=(store.path / name, store.read(source)), daemon=True
        ).start()
    assert store.run("replay", "slow_conf", "slow_sched") == Run(store.whole, 0)
    assert store.read("out.0.pcap") == store.output


def drip(path: Path, data: bytes) -> None:
    with open(path, "wb", buffering=0) as pipe:
        for at in range(len(data)):
            pipe.write(data[at : at + 1])


# ---- rights


@pytest.mark.needs("another user")
@pytest.mark.parametrize("name", ["conf", "sched"])
def test_no_right_to_read_a_text(store: Store, name: str) -> None:
    (store.path / name).chmod(0)
    assert store.replay() == Run("read fault\n", 5)


@pytest.mark.needs("another user")
def test_no_right_to_read_the_capture(store: Store) -> None:
    (store.path / "in.pcap").chmod(0)
    assert store.replay() == Run(FAULT, 5)


@pytest.mark.needs("another user")
def test_no_right_to_write_the_output(store: Store) -> None:
    store.write("out.0.pcap", "before").chmod(0o444)
    assert store.replay() == Run(store.whole, 6)
    assert store.read("out.0.pcap") == b"before"


@pytest.mark.needs("another user")
def test_no_right_to_make_the_output(store: Store) -> None:
    store.path.chmod(0o555)
    assert store.replay() == Run(store.whole, 6)
    store.path.chmod(0o755)


# ---- saving and printing


def test_an_output_folder_that_isnt_there(store: Store) -> None:
    store.conf("out none/out")
    assert store.replay() == Run(store.whole, 6)


def test_a_folder_as_the_output(store: Store) -> None:
    (store.path / "out.0.pcap").mkdir()
    assert store.replay() == Run(store.whole, 6)


def test_an_output_over_another_file(store: Store) -> None:
    store.write("out.0.pcap", bytes(100_000))
    assert store.replay() == Run(store.whole, 0)
    assert store.read("out.0.pcap") == store.output


def test_a_full_device_as_the_output(store: Store) -> None:
    (store.path / "out.0.pcap").symlink_to("/dev/full")
    assert store.replay() == Run(store.whole, 6)


def test_a_pipe_without_a_reader(store: Store) -> None:
    reader, writer = os.pipe()
    os.close(reader)
    assert store.status_into(writer, "replay", "conf", "sched") == 6
    os.close(writer)
    assert store.read("out.0.pcap") == store.output


@pytest.mark.parametrize(
    "line", ["replay conf sched", "replay none sched", "replay conf ticks", "no command"]
)
def test_standard_output_that_takes_nothing(store: Store, line: str) -> None:
    """It is full, or closed."""
    store.write("ticks", "tick 2\ntick 1\n")
    with full() as output:
        assert store.status_into(output, *line.split()) == 6
    closed = ["sh", "-c", 'exec "$@" >&-', "-", *as_nobody, str(store.program), *line.split()]
    assert subprocess.run(closed, cwd=store.path, timeout=600).returncode == 6
    if line == "replay conf sched":
        assert store.read("out.0.pcap") == store.output


def limit_files() -> None:
    """A file may have 1024 bytes, and no signal says that it has."""
    signal.signal(signal.SIGXFSZ, signal.SIG_IGN)
    resource.setrlimit(resource.RLIMIT_FSIZE, (1024, 1024))


def test_a_limit_for_files(store: Store) -> None:
    """A disk that fills up in the middle of a file leaves its first bytes."""
    store.write("out.0.pcap", bytes(100_000))
    assert store.run("replay", "conf", "sched", preexec_fn=limit_files) == Run(store.whole, 6)
    assert store.read("out.0.pcap") == store.output[:1024]


def limit_files_with_the_signal() -> None:
    signal.signal(signal.SIGXFSZ, signal.SIG_DFL)
    resource.setrlimit(resource.RLIMIT_CORE, (0, 0))
    resource.setrlimit(resource.RLIMIT_FSIZE, (1024, 1024))


def test_the_signal_of_a_limit_for_files(store: Store) -> None:
    """Where nobody ignores the system's signal it ends the program."""
    run = store.run("replay", "conf", "sched", preexec_fn=limit_files_with_the_signal)
    assert run.status in (-signal.SIGXFSZ, 128 + signal.SIGXFSZ)


@pytest.mark.needs("mounts")
def test_a_small_file_system(store: Store) -> None:
    (store.path / "small").mkdir()
    subprocess.run(
        ["mount", "-t", "tmpfs", "-o", "size=4k,mode=777", "none", "small"], cwd=store.path,
        check=True
    )
    try:
        store.conf("out small/out", "dump yes")
        assert store.replay() == Run(store.whole, 6)
        found = store.read("small/out.0.pcap")
        assert len(found) < len(store.output)
        assert store.output.startswith(found)
        assert not store.is_there("small/out.0.blk") or store.read("small/out.0.blk") == b""
    finally:
        subprocess.run(["umount", "small"], cwd=store.path, check=True)


def interrupted(store: Store, room: Path, **times: int) -> Run:
    """A replay whose opens, reads and writes are interrupted so many times in a row."""
    words = [
        "cc", "-shared", "-fPIC", "-o", room / "interrupt.so",
        Path(__file__).parent / "interrupt.c", "-ldl"
    ]
    subprocess.run(words, check=True)
    settings = {name: str(count) for name, count in times.items()}
    done, why = running.run(
        [store.program, "replay", "conf", "sched"], cwd=store.path,
        env={**os.environ, "LD_PRELOAD": str(room / "interrupt.so"), **settings},
    )
    assert done is not None, why
    return Run(done.stdout.decode(), done.returncode)


@pytest.mark.needs("cc")
def test_interrupted_calls(store: Store, room: Path) -> None:
    """Calls that signals interrupt 15 times in a row, and writes that take half: the run is as
    without them."""
    assert interrupted(store, room, OPENS=15, READS=15, WRITES=15) == Run(store.whole, 0)
    assert store.read("out.0.pcap") == store.output


@pytest.mark.needs("cc")
def test_reads_interrupted_without_end(store: Store, room: Path) -> None:
    assert interrupted(store, room, READS=1_000_000) == Run("read fault\n", 5)


@pytest.mark.needs("cc")
def test_writes_interrupted_without_end(store: Store, room: Path) -> None:
    store.write("out.0.pcap", "before\n")
    assert interrupted(store, room, WRITES=1_000_000) == Run("", 6)
    assert store.read("out.0.pcap") == b""


# ---- more than one fault


@pytest.mark.parametrize("command", ["replay conf sched", "capture conf"])
def test_the_first_of_the_statuses_6_5_and_4(store: Store, command: str) -> None:
    words = command.split()
    store.write("cut.pcap", store.read("in.pcap")[:300])
    store.write("conf", roomy("cut.pcap"))
    run = store.run(*words)
    assert (run.status, run.printed.startswith(CUT)) == (4, True)
    store.conf("cpu none", "members 2")
    lines = CUT + "cpu 1 frames 0 arrivals 0 end fault\n"
    run = store.run(*words)
    assert (run.status, run.printed.startswith(lines)) == (5, True)
    for path in store.path.glob("out.*"):
        path.unlink()
    (store.path / "out.1.pcap").mkdir()
    run = store.run(*words)
    assert (run.status, run.printed.startswith(lines)) == (6, True)
    assert store.read("out.0.pcap") != b""
    with full() as output:
        assert store.status_into(output, *words) == 6


# ---- outputs that are inputs of the same run: the run is right, and the input is gone

LINKS = {"a symbolic link": os.symlink, "a link": os.link}


@pytest.mark.parametrize("kind", LINKS)
@pytest.mark.parametrize("name", ["in.pcap", "conf", "sched"])
def test_an_output_that_is_an_input(store: Store, kind: str, name: str) -> None:
    LINKS[kind](store.path / name, store.path / "out.0.pcap")
    assert store.replay() == Run(store.whole, 0)
    assert store.read("out.0.pcap") == store.output
    assert store.read(name) == store.output


@pytest.mark.parametrize("kind", LINKS)
def test_a_sent_file_that_is_the_capture(store: Store, kind: str) -> None:
    LINKS[kind](store.path / "in.pcap", store.path / "out.tx.pcap")
    assert store.run("send", "conf") == Run(WHOLE_SEND, 0)
    assert store.read("in.pcap") == store.read("out.tx.pcap")


@pytest.mark.parametrize("kind", LINKS)
def test_an_output_of_threads_that_is_the_capture(store: Store, kind: str) -> None:
    store.write("conf", roomy("in.pcap"))
    LINKS[kind](store.path / "in.pcap", store.path / "out.0.pcap")
    assert store.run("capture", "conf") == Run(ROOMY, 0)
    assert store.read("in.pcap") == (TOP / "demo/expected/setup/out.0.pcap").read_bytes()


def test_an_output_with_the_name_of_the_capture(store: Store) -> None:
    (store.path / "in.pcap").rename(store.path / "out.0.pcap")
    store.write("conf", setup("out.0.pcap"))
    assert store.replay() == Run(store.whole, 0)
    assert store.read("out.0.pcap") == store.output


def keeps_inputs(store: Store, *words: str) -> tuple[bool, str]:
    done = subprocess.run(
        ["sh", TOP / "demo/keep_inputs.sh", *words], cwd=store.path, capture_output=True, text=True
    )
    return done.returncode == 0, done.stdout


@pytest.mark.parametrize("name", ["conf", "sched", "in.pcap", "pass", "moments"])
def test_keep_inputs_refuses_an_output_that_is_an_input(store: Store, name: str) -> None:
    store.conf("filter pass", "ticks moments")
    for other in ("pass", "moments", "out.0.pcap"):
        store.write(other, "")
    assert keeps_inputs(store, "conf", "sched")[0]
    (store.path / "out.3.blk").symlink_to(name)
    is_kept, said = keeps_inputs(store, "conf", "sched")
    assert not is_kept
    assert name in said


def test_keep_inputs_refuses_a_capture_with_the_name_of_an_output(store: Store) -> None:
    (store.path / "in.pcap").rename(store.path / "in.0.pcap")
    store.write("conf", setup("in.0.pcap", "out ./in"))
    assert not keeps_inputs(store, "conf")[0]


# ---- names


def test_a_capture_with_a_name_of_255_bytes(store: Store) -> None:
    """The most that a file may have here."""
    (store.path / "in.pcap").rename(store.path / ("0" * 255))
    store.write("conf", setup("0" * 255))
    assert store.replay() == Run(store.whole, 0)
    assert store.read("out.0.pcap") == store.output


def test_outputs_with_long_names(store: Store) -> None:
    """One of 255 bytes, and one of 262 that no file can have."""
    store.conf("out " + "0" * 248)
    assert store.replay() == Run(store.whole, 0)
    assert store.read("0" * 248 + ".0.pcap") == store.output
    store.write("conf", setup("in.pcap", "out " + "0" * 255))
    assert store.replay() == Run(store.whole, 6)


def test_a_name_of_256_bytes_in_the_setup(store: Store) -> None:
    store.write("conf", setup("0" * 256))
    assert store.replay() == Run("setup line 5: bad_number\n", 2)


@pytest.mark.parametrize(
    "words",
    [
        [], ["replay", "conf"], ["replay", "conf", "sched", "sched"], ["replay", "", "sched"],
        ["replay", "conf", ""], ["record", "conf"], ["--help"],
        *(
            [command, *rest]
            for command in ("check", "send", "make", "capture")
            for rest in ([], ["conf", "sched"], [""])
        ),
    ]
)
def test_arguments_that_are_no_command(store: Store, words: list[str]) -> None:
    assert store.run(*words) == Run(USAGE, 1)


@pytest.mark.parametrize("name", [b"\xff", b"conf\xff", b"\xed\xa0\x80", b"\xc0\xaf"])
def test_names_that_are_no_utf8(store: Store, name: bytes) -> None:
    assert store.run("replay", name, "sched") == Run(USAGE, 1)
    assert store.run("replay", "conf", name) == Run(USAGE, 1)
    assert store.run(b"replay" + name, "conf", "sched") == Run(USAGE, 1)


def test_a_name_in_utf8(store: Store) -> None:
    store.write("r\u00e9glage", store.read("conf"))
    assert store.run("replay", "r\u00e9glage", "sched") == Run(store.whole, 0)


def test_long_names_as_arguments(store: Store) -> None:
    """Names of 404 and of 70,004 bytes: an argument is read into buffers that double until one
    holds it."""
    assert store.run("replay", "./" * 200 + "conf", "sched") == Run(store.whole, 0)
    assert store.read("out.0.pcap") == store.output
    assert store.run("replay", "./" * 35_000 + "conf", "sched") == Run("read fault\n", 5)


# ---- sending, making and capturing on threads


def sent(store: Store) -> bytes:
    """What is sent of the store's setup, by the second program."""
    before = os.getcwd()
    os.chdir(store.path)
    try:
        return worked_out("send", "conf")[1]["out.tx.pcap"]
    finally:
        os.chdir(before)


def test_a_send_reads_no_more_than_its_capture(store: Store) -> None:
    store.conf("filter none", "ticks none", "cpu none")
    assert store.run("send", "conf") == Run(WHOLE_SEND, 0)
    assert store.read("out.tx.pcap") == sent(store)
    assert not store.is_there("out.0.pcap")


def test_a_cut_capture_is_sent(store: Store) -> None:
    store.write("cut.pcap", store.read("in.pcap")[:17_000])
    store.write("conf", setup("cut.pcap"))
    run = store.run("send", "conf")
    assert (run.status, run.printed.startswith("cpu 0 frames 51 end truncated ")) == (4, True)
    assert store.read("out.tx.pcap") == sent(store)


def test_a_transmit_ring_has_no_time_out(store: Store) -> None:
    store.conf("tov 1")
    assert store.run("send", "conf") == Run("setup line 0: request transmit\n", 2)


def test_a_folder_as_the_output_of_a_send(store: Store) -> None:
    (store.path / "out.tx.pcap").mkdir()
    assert store.run("send", "conf") == Run(WHOLE_SEND, 6)


def test_a_full_device_as_the_output_of_a_send(store: Store) -> None:
    (store.path / "out.tx.pcap").symlink_to("/dev/full")
    assert store.run("send", "conf") == Run(WHOLE_SEND, 6)


def test_a_send_whose_standard_output_is_full(store: Store) -> None:
    with full() as output:
        assert store.status_into(output, "send", "conf") == 6
    assert store.read("out.tx.pcap") == sent(store)


def test_a_make_of_captures_that_arent_there(store: Store, monkeypatch: pytest.MonkeyPatch) -> None:
    store.write(
        "conf", setup("none", "make 1 100", "cpu none", "ticks none", "members 2", "out made")
    )
    run = store.run("make", "conf")
    monkeypatch.chdir(store.path)
    lines, files = worked_out("make", "conf")
    assert run == Run(lines, 0)
    assert {name: store.read(name) for name in files} == files
    assert [
        line
        for line in lines.splitlines() if line.endswith(" frames 50 arrivals 50 end ok")
    ] == lines.splitlines()[:2]


def test_a_make_with_a_filter_that_isnt_there(store: Store) -> None:
    store.conf("make 1 100", "filter none")
    assert store.run("make", "conf") == Run("read fault\n", 5)


def test_a_make_of_no_frame(store: Store) -> None:
    store.conf("make 1 0")
    assert store.run("make", "conf") == Run("setup line 6: bad_number\n", 2)


def test_a_folder_as_the_output_of_a_make(store: Store) -> None:
    store.conf("make 1 10")
    (store.path / "out.0.pcap").mkdir()
    run = store.run("make", "conf")
    assert (run.status, "\ntotal arrivals 10 " in run.printed) == (6, True)


@pytest.fixture
def threads(store: Store) -> Store:
    """A store whose setup has a ring for the whole demo."""
    store.write("conf", roomy("in.pcap"))
    return store


def test_a_capture_on_threads(threads: Store) -> None:
    assert threads.run("capture", "conf") == Run(ROOMY, 0)
    assert threads.read("out.0.pcap") == (TOP / "demo/expected/setup/out.0.pcap").read_bytes()


@pytest.mark.parametrize("name", UNREADABLE)
def test_moments_that_cant_be_read(threads: Store, name: str) -> None:
    threads.conf(f"ticks {name}")
    assert threads.run("capture", "conf") == Run("read fault\n", 5)
    assert not threads.is_there("out.0.pcap")


def test_moments(threads: Store) -> None:
    threads.conf("ticks moments")
    threads.write("moments", "2\n1\n")
    assert threads.run("capture", "conf") == Run("ticks line 2: not_ascending\n", 3)
    threads.write("moments", "1\n2\n")
    assert threads.run("capture", "conf") == Run(ROOMY, 0)


def test_a_folder_as_the_output_of_a_capture_on_threads(threads: Store) -> None:
    (threads.path / "out.0.pcap").mkdir()
    assert threads.run("capture", "conf") == Run(ROOMY, 6)


def test_a_capture_on_threads_whose_standard_output_is_full(threads: Store) -> None:
    with full() as output:
        assert threads.status_into(output, "capture", "conf") == 6
    assert threads.read("out.0.pcap") == (TOP / "demo/expected/setup/out.0.pcap").read_bytes()
