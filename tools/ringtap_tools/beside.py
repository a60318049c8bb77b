"""Runs a capture program of yours on a real ring, stops it for a while, and compares its drop
counter with what is predicted.

In a network namespace of its own a pair of virtual Ethernet devices is made; the command runs on
one of them ({} in it is the device's name), tcpreplay sends the capture on the other. The ring is
the one that ss shows of the program. It is stopped by SIGSTOP, goes on by SIGCONT, and ends by
SIGINT; then its own statistics are read. The prediction is the range of losses of ring_size.py over
all phases of the timer, for a reader that wakes when a block is handed over.

It needs Linux, root, ip and ss of iproute2, and tcpreplay. Where one is missing it says so, and
the status is 77.
"""
from __future__ import annotations

import argparse
import json
import os
import re
import shutil
import signal
import subprocess
import sys
import tempfile
import time
from dataclasses import dataclass
from pathlib import Path

from .files import Fault
from .ring_of import SS, V2, entries, groups_of, setup_of, socket_of
from .runs import add_program, program_of
from .schedule import positive, stall
from .words import ToolParser, add_json, print_json

HERE = Path(__file__).resolve().parent.parent  # where the commands are
SKIPPED = 77  # the status of a check that can't run here
SENDER, TAKER = "rt0", "rt1"
# Of the devices; seconds until a ring is there, and to the end.
LARGEST_MTU, PATIENCE, REST = 65_535, 10.0, 1.5
LATE = 1.05  # times as long as was asked for is too slow
COUNTERS = (  # what tcpdump, dumpcap and netsniff-ng print when they end
    r"(\d+) packets? dropped by kernel",
    r"Packets received/dropped on interface '[^']*': \d+/(\d+)",
    r"(\d+) +packets? (?:failed filter|dropped)",
)


@dataclass(frozen=True)
class Found:
    """The ring that ss shows of a program: its setup and its filter."""

    setup: str
    instructions: tuple[str, ...]
    is_v2: bool

    def number(self, word: str) -> int:
        lines = (line.split() for line in self.setup.splitlines())
        return int(next(line[1] for line in lines if line[0] == word))


@dataclass
class Seen:
    """What the program said, and how its ring was."""

    drops: int
    said: str
    ring: Found
    seconds: float  # from the first frame to the last


def lacking() -> str | None:
    """Why nothing can be run here."""
    if not sys.platform.startswith("linux"):
        return "it needs Linux"
    if os.geteuid():
        return "it needs root, for a network namespace"
    missing = [name for name in ("ip", "ss", "tcpreplay") if not shutil.which(name)]
    return f"it needs {', '.join(missing)}" if missing else None


def call(*words: str) -> str:
    done = subprocess.run(words, capture_output=True, text=True, errors="replace")
    if done.returncode:
        raise Fault(
            f"`{' '.join(words)}` ended with status {done.returncode}: {done.stderr.strip()}"
        )
    return done.stdout


class Namespace:
    """A network namespace with a pair of devices, and nothing else on them."""

    def __init__(self) -> None:
        self.name = f"ringtap-{os.getpid()}"

    def __enter__(self) -> Namespace:
        call("ip", "netns", "add", self.name)
        try:
            call(
                "ip", "-n", self.name, "link", "add", SENDER, "type", "veth", "peer", "name", TAKER
            )
            self.run("sysctl", "-q", "-w", "net.ipv6.conf.all.disable_ipv6=1")
            for device in (SENDER, TAKER):
                call("ip", "-n", self.name, "link", "set", device, "mtu", str(LARGEST_MTU), "up")
        except BaseException:
            self.__exit__()
            raise
        return self

    def __exit__(self, *_: object) -> None:
        subprocess.run(["ip", "netns", "del", self.name], capture_output=True)

    def words(self, *words: str) -> list[str]:
        return ["ip", "netns", "exec", self.name, *words]

    def run(self, *words: str) -> str:
        return call(*self.words(*words))


def ring_in(space: Namespace, program: subprocess.Popen) -> Found:
    """The ring that the program has made, once it is there."""
    until = time.monotonic() + PATIENCE
    while time.monotonic() < until and program.poll() is None:
        found = [one for one in map(socket_of, entries(space.run(*SS))) if one]
        if found:
            group = groups_of(found)[0]
            name = "filter.ddd" if group[0].filter else None
            text = setup_of(group, ["capture.pcap"], name, False)
            return Found(text, group[0].filter, group[0].version == V2)
        time.sleep(0.05)
    raise Fault(
        "the program ended before it had a ring"
        if program.poll() is not None
        else f"the program has no ring after {PATIENCE:g} s"
    )


def replayed(space: Namespace, args: argparse.Namespace, words: list[str], log: Path) -> Seen:
    """Starts the program, sends the capture, stops and ends the program."""
    with open(log, "wb") as output:
        program = subprocess.Popen(
            space.words(*words), stdout=output, stderr=output, stdin=subprocess.DEVNULL
        )
        try:
            ring = ring_in(space, program)
            sender = subprocess.Popen(
                space.words("tcpreplay", "-q", "-i", SENDER, *rate_words(args), str(args.capture)),
                stdout=subprocess.DEVNULL,
                stderr=subprocess.PIPE,
                text=True,
            )
            begin = first_frame(program.pid, sender)
            for start, length in sorted(args.stop):
                time.sleep(max(0.0, begin + float(start) / 1000 - time.monotonic()))
                program.send_signal(signal.SIGSTOP)
                time.sleep(float(length) / 1000)
                program.send_signal(signal.SIGCONT)
            said, took = sender.communicate()[1], time.monotonic() - begin
            if sender.returncode:
                raise Fault(f"tcpreplay ended with status {sender.returncode}: {said.strip()}")
            time.sleep(REST)
            program.send_signal(signal.SIGINT)
            program.wait(PATIENCE)
        finally:
            if program.poll() is None:
                program.kill()
                program.wait()
    text = log.read_text(errors="replace")
    return Seen(counter_in(text, args.counter), text, ring, took)


def first_frame(process: int, sender: subprocess.Popen) -> float:
    """Waits until a frame has come to the program's device; when that was."""
    while sender.poll() is None:
        for line in Path(f"/proc/{process}/net/dev").read_text().splitlines():
            name, _, counts = line.partition(":")
            if name.strip() == TAKER and int(counts.split()[1]):
                return time.monotonic()
        time.sleep(0.001)
    return time.monotonic()


def rate_words(args: argparse.Namespace) -> list[str]:
    if args.pps:
        return [f"--pps={float(args.pps):g}"]
    if args.mbps:
        return [f"--mbps={float(args.mbps):g}"]
    return [f"--multiplier={float(args.speed):g}"]


def counter_in(text: str, pattern: str | None) -> int:
    """The drop counter among what the program printed."""
    for one in [pattern] if pattern else COUNTERS:
        found = re.findall(one, text)
        if found:
            return int(found[-1])
    shown = text.strip().splitlines()[-3:]
    raise Fault(
        "no drop counter in what the program printed: --counter gives its pattern; the last lines:"
        f" {shown}"
    )


def predicted(args: argparse.Namespace, found: Found, folder: Path, program: Path) -> dict:
    """The range of losses of the ring, by ring_size.py."""
    (folder / "capture.pcap").symlink_to(args.capture.resolve())
    (folder / "setup.txt").write_text(found.setup)
    if found.instructions:
        (folder / "filter.ddd").write_text(
            "\n".join([str(len(found.instructions)), *found.instructions]) + "\n"
        )
    blocks = found.number("block_nr")
    words = ["setup.txt", "--block-nr", str(blocks), "--poll", "0", "--json"]
    words += ["--program", str(program)]
    words += ["--replay2", "--keys", "0"] * found.is_v2  # one number, so of one key
    for start, length in args.stop:
        words += ["--stall", f"{start}:{length}"]
    for name in ("pps", "mbps", "speed"):
        if (value := getattr(args, name)) and (name, value) != ("speed", 1):
            words += [f"--{name}", str(value)]
    command = [sys.executable, "-B", str(HERE / "ring_size.py"), *words]
    done = subprocess.run(command, cwd=folder, capture_output=True, text=True)
    if done.returncode not in (0, 3):
        raise Fault(f"ring_size.py: {done.stderr.strip()}")
    print(done.stderr, end="", file=sys.stderr)
    made = json.loads(done.stdout)
    ring = next(ring for ring in made["rings"] if ring["block_nr"] == blocks)
    if ring["by_keys"]:  # a kernel's key is a secret of its boot
        ring["fewest"], ring["drops"] = ring["by_keys"]["all"]
    return ring | {"about": made["about"]}


def ring_words(found: Found) -> str:
    if found.is_v2:
        return f"{found.number('frame_nr')} slots of {found.number('frame_size')} bytes"
    blocks = f"{found.number('block_nr')} blocks of {found.number('block_size')} bytes"
    return f"{blocks}, time-out {found.number('tov')} ms"


def range_words(ring: dict, drops: int, is_within: bool | None) -> str:
    if is_within is None:
        return f"{ring['drops']:,}, since slots have no timer; {drops - ring['drops']:+,} differ"
    where = "within" if is_within else "not within"
    span = f"{ring['fewest']:,} to {ring['drops']:,}, over all phases of the timer"
    return f"{span}; its number is {where}"


def seconds_asked(args: argparse.Namespace, about: dict) -> float:
    """How long the frames take at the rate that was asked for."""
    one = about["captures"][0]
    if args.pps:
        return one["frames"] / float(args.pps)
    if args.mbps:
        return 8 * args.capture.stat().st_size / float(args.mbps * 1_000_000)
    return one["nanoseconds"] / 1e9 / float(args.speed)


def parser_of() -> ToolParser:
    parser = ToolParser(__doc__, "lo.pcap --stop 100:500 -- tcpdump -i {} -w /dev/null")
    parser.add_argument("capture", type=Path, metavar="CAPTURE", help="what is sent")
    parser.add_argument(
        "command",
        nargs="+",
        metavar="COMMAND",
        help="the program and its words, after `--`; {} is the device",
    )
    parser.add_argument(
        "--stop",
        type=stall,
        action="append",
        default=[],
        metavar="FROM:MS",
        help="stop it from millisecond FROM on for MS milliseconds; may be given several times",
    )
    rate = parser.add_mutually_exclusive_group()
    rate.add_argument(
        "--speed",
        type=positive,
        default=positive("1"),
        metavar="X",
        help="frames are sent X times as fast (1)",
    )
    rate.add_argument("--pps", type=positive, metavar="N", help="N frames are sent a second")
    rate.add_argument(
        "--mbps", type=positive, metavar="N", help="N million bits of frames are sent a second"
    )
    parser.add_argument(
        "--counter",
        metavar="PATTERN",
        help="a regular expression whose group is the drop counter in what it prints",
    )
    add_json(parser)
    add_program(parser)
    return parser


def main(words: list[str]) -> int:
    args = parser_of().parse_args(words)
    if why := lacking():
        print(f"skipped: {Path(sys.argv[0]).name}: {why}")
        return SKIPPED
    program = program_of(args.program)
    if not args.capture.is_file():
        raise Fault(f"{args.capture}: isn't a file that can be sent")
    command = [word.replace("{}", TAKER) for word in args.command]
    with tempfile.TemporaryDirectory(prefix="ringtap-") as folder:
        with Namespace() as space:
            seen = replayed(space, args, command, Path(folder) / "log")
        ring = predicted(args, seen.ring, Path(folder), program)
    asked = seconds_asked(args, ring.pop("about"))
    is_late = seen.seconds > LATE * asked + 0.2
    # slots have no timer, so there is one number, for stops of just so many milliseconds
    is_within = None if seen.ring.is_v2 else ring["fewest"] <= seen.drops <= ring["drops"]
    if args.json:
        print_json(
            {
                "dropped": seen.drops,
                "fewest": ring["fewest"],
                "most": ring["drops"],
                "is_within": is_within,
                "is_late": is_late,
                "seconds": round(seen.seconds, 3),
                "seconds_asked": round(asked, 3),
                "block_nr": ring["block_nr"],
                "block_size": ring["block_size"],
                "tov": ring["tov"],
                "is_v2": seen.ring.is_v2,
            }
        )
    else:
        print(f"its ring: {ring_words(seen.ring)}, as ss shows it")
        print(f"it says: {seen.drops:,} dropped")
        if is_late:
            print(
                f"frames took {seen.seconds:.1f} s in place of {asked:.1f} s: this machine is too"
                " busy for the rate, and the numbers can't be compared"
            )
        print(f"predicted: {range_words(ring, seen.drops, is_within)}")
    return 0
