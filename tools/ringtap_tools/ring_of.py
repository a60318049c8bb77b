"""Writes a setup that has the ring of a running program, as `ss -0 -e -i -b -p` of iproute2 shows
it, or the one that a suricata.yaml asks for.

Sockets of one fanout group make one setup. ss shows neither the private area of a block nor the
group's flags, and who may not see other people's sockets, as an ordinary user, is shown no filter
and no process. The key of a hash is the kernel's secret: in its place stands the published one of
receive side scaling, so flows go to other members than in the kernel, each to one all the same.

libpcap reserves 4 bytes of each packet for a VLAN tag (PACKET_RESERVE), so that its data begins at
86 where ringtap's does at 82: the setup says so, since of packets of 62 bytes a ring here has room
for 5.6 percent more. A socket that isn't Ethernet, as that of `-i any`, is warned of.
"""
from __future__ import annotations

import argparse
import re
import subprocess
import sys
from dataclasses import dataclass
from pathlib import Path

from .files import Fault, read_bytes, refuse_name
from .notes import ROLLOVER_NOTE
from .outputs import check_outputs, write_text
from .runs import table
from .suricata_rings import SuricataRing, read_config
from .words import ToolParser, add_json, print_json

SS = ["ss", "-0", "-e", "-i", "-b", "-p", "-n", "-H"]
MODES = {"hash": "hash", "lb": "lb", "cpu": "cpu", "roll": "rollover", "qm": "qm"}
VERSION_NAMES = {0: "TPACKET_V1", 1: "TPACKET_V2", 2: "TPACKET_V3"}
V2, V3 = 1, 2
# The key that Microsoft published with the verification suite of receive side scaling.
KEY = "6d5a56da255b0ec24167253d43a38fb0d0ca2bcbae7b30b477cb2da38030f20c6a42b73bbeac01fa"
LARGEST_BLOCK, LARGEST_RING = 1_048_576, 67_108_864
LEAST_BLOCKS, MOST_BLOCKS, MOST_MEMBERS, MOST_TIMEOUT = 2, 256, 8, 60_000
PAGE, MOST_SLOTS = 4096, 65_536


@dataclass(frozen=True)
class Ring:
    """The receive ring of a socket, with the words of `struct tpacket_req3`."""

    block_size: int
    block_nr: int
    frame_size: int
    timeout: int  # milliseconds
    features: int


@dataclass(frozen=True)
class Socket:
    """A packet socket with a receive ring."""

    inode: int
    kind: str  # p_raw, or p_dgr, whose packets have no link header
    device: str
    version: int
    ring: Ring
    users: tuple[tuple[str, int], ...]  # name and process id
    fanout: tuple[int, str] | None  # group id and mode, as ss names it
    filter: tuple[str, ...]  # instructions as `tcpdump -ddd` writes them

    def words(self) -> str:
        names = (
            ", ".join(f"{name} (pid {pid})" for name, pid in self.users)
            or "a process that ss doesn't show"
        )
        return shown(f"{names} on {self.device}")


def entries(text: str) -> list[str]:
    """The sockets that ss shows, each in one line: lines that begin with a blank belong to the one
    before."""
    found: list[str] = []
    for line in text.split("\n"):
        if line[:1].isspace() and found:
            found[-1] += " " + line.strip()
        elif line.startswith("p_"):
            found.append(line)
    return found


def socket_of(entry: str) -> Socket | None:
    """Reads a socket; None where it has no receive ring."""
    ring = re.search(r"ring_rx\((.*?)\)", entry)
    inode, version = re.search(r"\bino:(\d+)", entry), re.search(r"\bver:(\d+)", entry)
    if not (ring and inode and version):
        return None
    try:
        words = dict(part.split(":", 1) for part in ring[1].split(","))
        numbers = [
            int(words[name], 0) for name in ("blk_size", "blk_nr", "frm_size", "tmo", "features")
        ]
    except (KeyError, ValueError):
        raise Fault(f"ss: a ring in words that aren't known: ring_rx({ring[1]})") from None
    if min(numbers[:3]) < 1 or numbers[2] > numbers[0] or min(numbers) < 0:
        raise Fault(f"ss: no ring has such numbers: ring_rx({ring[1]})")
    device = re.search(r"(?:\s|])\S*?:(\S+)\s+\*", entry)
    fanout = re.search(r"fanout\(id:(\d+),type:(\w+)", entry)
    filtered = re.search(r"bpf filter \(\d+\):\s*(.*)$", entry)
    parts = [part.split() for part in filtered[1].split(",") if part.strip()] if filtered else []
    try:
        instructions = tuple(
            f"{int(code, 0)} {int(jt)} {int(jf)} {int(k)}" for code, jt, jf, k in parts
        )
    except ValueError:
        raise Fault(
            f"ss: a filter in words that aren't known: {filtered[1].strip()[:60]}"
        ) from None
    return Socket(
        int(inode[1]),
        entry.split()[0],
        device[1] if device else "?",
        int(version[1]),
        Ring(*numbers),
        tuple((name, int(pid)) for name, pid in re.findall(r'\("([^"]*)",pid=(\d+)', entry)),
        (int(fanout[1]), fanout[2]) if fanout else None,
        instructions,
    )


def groups_of(sockets: list[Socket]) -> list[list[Socket]]:
    """The sockets of one fanout group together, in the order of ss, and every other one alone."""
    groups: dict[object, list[Socket]] = {}
    for socket in sockets:
        groups.setdefault(socket.fanout or socket.inode, []).append(socket)
    return list(groups.values())


def chosen(groups: list[list[Socket]], args: argparse.Namespace) -> list[Socket]:
    """The one group that was asked for."""

    def is_meant(socket: Socket) -> bool:
        return (
            (args.pid is None or args.pid in [pid for _, pid in socket.users])
            and (args.name is None or args.name in [name for name, _ in socket.users])
            and (args.inode is None or args.inode == socket.inode)
        )

    meant = [group for group in groups if any(map(is_meant, group))]
    if len(meant) != 1:
        listed = table(
            ["inode", "sockets", "blocks of bytes", "who"],
            [
                [
                    group[0].inode,
                    len(group),
                    f"{group[0].ring.block_nr} x {group[0].ring.block_size}",
                    group[0].words(),
                ]
                for group in meant or groups
            ],
        )
        how = (
            "no packet socket has a receive ring"
            if not groups
            else (
                f"{'more than one ring' if meant else 'no such ring'}: choose by --pid, --name or"
                f" --inode\n{listed}"
            )
        )
        raise Fault(how)
    return meant[0]


def fitted(ring: Ring, is_fit: bool) -> tuple[Ring, list[str]]:
    """A ring within ringtap's limits, and what was changed for it."""
    size, count, timeout, changes = ring.block_size, ring.block_nr, ring.timeout, []
    if size > LARGEST_BLOCK:
        changes.append(f"blocks of {size} bytes in place of at most {LARGEST_BLOCK}")
        size, count = LARGEST_BLOCK, -(-size * count // LARGEST_BLOCK)
    most = min(MOST_BLOCKS, LARGEST_RING // size)
    if not LEAST_BLOCKS <= count <= most:
        changes.append(f"{count} blocks of {size} bytes in place of {LEAST_BLOCKS} to {most}")
        count = max(LEAST_BLOCKS, min(count, most))
    if timeout > MOST_TIMEOUT:
        changes.append(f"a time-out of {timeout} ms in place of at most {MOST_TIMEOUT}")
        timeout = MOST_TIMEOUT
    if changes and not is_fit:
        raise Fault(
            f"the ring has {'; '.join(changes)}, which ringtap has not: --fit takes the nearest one"
        )
    return Ring(size, count, ring.frame_size, timeout, ring.features), changes


def slots_fitted(ring: Ring, is_fit: bool) -> tuple[Ring, list[str]]:
    """A ring of TPACKET_V2 with as many slots, which alone count: other blocks may hold them."""
    slots = ring.block_size // ring.frame_size * ring.block_nr
    found, missed = None, 0
    for size in range(PAGE, LARGEST_BLOCK + 1, PAGE):
        inside = size // ring.frame_size
        if not inside:
            continue
        most = min(MOST_BLOCKS, LARGEST_RING // size, MOST_SLOTS // inside)
        count = max(LEAST_BLOCKS, min(most, (slots + inside // 2) // inside))
        if count <= most and (found is None or abs(count * inside - slots) < missed):
            found, missed = Ring(size, count, ring.frame_size, ring.timeout, ring.features), abs(
                count * inside - slots
            )
        if found and not missed:
            break
    if found is None or missed and not is_fit:
        raise Fault(
            f"the ring has {slots} slots of {ring.frame_size} bytes, and ringtap has no ring of as"
            " many: --fit takes the nearest one"
        )
    changes = [
        f"{slots} slots in place of {found.block_size // found.frame_size * found.block_nr}"
    ] * bool(missed)
    if (found.block_size, found.block_nr) != (ring.block_size, ring.block_nr) and not missed:
        changes.append(
            f"its {slots} slots in {ring.block_nr} blocks of {ring.block_size} bytes, which makes"
            " no difference"
        )
    return found, changes


LIBPCAP = (
    "tcpdump",
    "dumpcap",
    "tshark",
    "wireshark",
    "snort",
    "nmap",
    "ngrep",
    "tcpflow",
    "arpwatch",
    "p0f",
)
RESERVES = [
    (
        "# libpcap reserves 4 bytes more of each packet (PACKET_RESERVE 4): its data begins at 86,"
        " and here at 82. So this ring has room for"
    ),
    (
        "# more than that one: for 1820 packets of 62 bytes in a block of 262144, where a kernel"
        " 6.18 puts 1724, 5.6 percent too many."
    ),
]
ETHERNET_TYPES = (1, 772)  # ARPHRD_ETHER, and ARPHRD_LOOPBACK, whose frames have an Ethernet header


@dataclass(frozen=True)
class Warned:
    """What is to be warned of: a word for programs, and a sentence."""

    kind: str
    words: str


def warnings_of(socket: Socket, is_live: bool) -> list[Warned]:
    """What makes a socket another than an Ethernet one."""
    if socket.kind == "p_dgr":
        said = (
            f"inode {socket.inode}: has packets without an Ethernet header (SOCK_DGRAM, as of `-i"
            " any`), and ringtap's are Ethernet frames: the room that packets take here is"
            " another, and so is a filter"
        )
        return [Warned("no_ethernet_header", said)]
    try:
        kind = int(Path(f"/sys/class/net/{socket.device}/type").read_text()) if is_live else 1
    except (OSError, ValueError):
        return []
    if kind in ETHERNET_TYPES:
        return []
    said = (
        f"inode {socket.inode}: {socket.device} isn't an Ethernet device (its type is {kind}), and"
        " ringtap's frames are Ethernet"
    )
    return [Warned("no_ethernet_device", said)]


def refuse_version(first: Socket) -> None:
    if first.version not in (V2, V3):
        name = VERSION_NAMES.get(first.version, f"version {first.version}")
        raise Fault(
            f"inode {first.inode}: is a {name} ring of {first.words()}; ringtap has no {name} rings"
        )


def setup_of(
    group: list[Socket], captures: list[str], filter_name: str | None, is_fit: bool
) -> str:
    """The text of the setup."""
    first = group[0]
    refuse_version(first)
    slots_alone = first.version == V2 and not fits_as_it_is(first.ring)
    ring, changes = (slots_fitted if slots_alone else fitted)(first.ring, is_fit)
    lines = [
        f"# The ring of {first.words()}, as ss shows it.",
        *[f"# It has {change}." for change in changes],
    ]
    if first.version == V2:
        lines.append("# Of TPACKET_V2, slots of one frame each: run it with `ringtap replay2`.")
        lines += [
            line
            for line in ring_lines(ring, captures)
            if line.split()[0] not in ("tov", "features")
        ]
    else:
        lines += RESERVES * any(name in LIBPCAP for name, _ in first.users)
        lines += ring_lines(ring, captures)
    if first.fanout:
        mode = MODES.get(first.fanout[1])
        if not mode:
            raise Fault(
                f"fanout group {first.fanout[0]}: has type {first.fanout[1]}, which ringtap has not"
            )
        lines += group_lines(len(group), mode)
    if filter_name:
        lines.append(f"filter {filter_name}")
    return "\n".join(lines) + "\n"


def fits_as_it_is(ring: Ring) -> bool:
    """Whether ringtap has such blocks."""
    most = min(MOST_BLOCKS, LARGEST_RING // max(ring.block_size, 1))
    slots = ring.block_size // ring.frame_size * ring.block_nr
    return (
        ring.block_size <= LARGEST_BLOCK
        and LEAST_BLOCKS <= ring.block_nr <= most
        and slots <= MOST_SLOTS
    )


def ring_lines(ring: Ring, captures: list[str]) -> list[str]:
    return [
        f"block_size {ring.block_size}",
        f"block_nr {ring.block_nr}",
        f"frame_size {ring.frame_size}",
        f"frame_nr {ring.block_size // ring.frame_size * ring.block_nr}",
        f"tov {ring.timeout}",
        f"features {ring.features & 1}",
        *[f"cpu {capture}" for capture in captures],
    ]


def group_lines(members: int, mode: str) -> list[str]:
    if members > MOST_MEMBERS:
        raise Fault(f"the group has {members} members, and ringtap has at most {MOST_MEMBERS}")
    return [f"members {members}", f"mode {mode}", *[f"key {KEY}"] * (mode == "hash")]


def suricata_setup(args: argparse.Namespace) -> str:
    """The setup of the ring that Suricata asks for, with a member for each of its threads."""
    asked = SuricataRing(
        read_config(args.suricata), args.interface, args.threads or len(args.captures)
    )
    ring, changes = fitted(
        Ring(asked.block_size, asked.block_nr, asked.frame_size, asked.timeout, 0), args.fit
    )
    inside = asked.block_size // asked.frame_size
    lines = [
        (
            f"# The ring that Suricata asks for on {shown(asked.name)}, by"
            f" {shown(str(args.suricata))}. By its source (AFPComputeRingParamsV3 in"
            " source-af-packet.c) and"
        ),
        (
            f"# documentation, not run here: frames of {asked.frame_size} bytes, {inside} in a"
            f" block, so {asked.packets} / {inside} + 1 = {asked.block_nr} blocks."
        ),
        *[f"# It has {change}." for change in changes],
        *ring_lines(ring, args.captures),
        *group_lines(asked.threads, asked.mode()),
        *[f"flag {flag}" for flag in asked.flags()],
    ]
    expression = asked.word("bpf-filter", "")
    if expression:
        lines.append(
            f"# Its filter: tcpdump -y EN10MB -ddd '{shown(expression)}' >FILE, and a line"
            " `filter FILE`."
        )
    return "\n".join(lines) + "\n"


def shown(words: str) -> str:
    """Words from outside as they may stand in a comment: printed ASCII in one line."""
    return "".join(char if char.isascii() and char.isprintable() else "?" for char in words)


def shown_by_ss() -> str:
    try:
        done = subprocess.run(SS, capture_output=True, text=True, errors="replace")
    except OSError:
        raise Fault("ss isn't here: it is a program of iproute2") from None
    if done.returncode:
        raise Fault(f"`{' '.join(SS)}` ended with status {done.returncode}: {done.stderr.strip()}")
    return done.stdout


def parser_of() -> ToolParser:
    parser = ToolParser(__doc__, "demo/lo.pcap --name tcpdump -o dump.txt")
    parser.add_argument(
        "captures",
        nargs="+",
        metavar="CAPTURE",
        help="the capture of each CPU, for the setup's lines `cpu`",
    )
    parser.add_argument("--pid", type=int, metavar="N", help="the ring of this process")
    parser.add_argument("--name", metavar="NAME", help="the ring of the program of this name")
    parser.add_argument(
        "--inode",
        type=int,
        metavar="N",
        help="the ring of the socket with this inode, as ss shows it",
    )
    parser.add_argument(
        "--from",
        dest="shown",
        type=Path,
        metavar="FILE",
        help=f"what `{' '.join(SS)}` printed, in place of a call of it",
    )
    parser.add_argument(
        "--suricata",
        type=Path,
        metavar="YAML",
        help="the ring that this suricata.yaml asks for, by its source and documentation",
    )
    parser.add_argument(
        "--interface", metavar="NAME", help="the interface of the suricata.yaml (the first one)"
    )
    parser.add_argument(
        "--threads",
        type=int,
        metavar="N",
        help="Suricata's threads where its file has `auto` (one for each CAPTURE)",
    )
    parser.add_argument("--fit", action="store_true", help="take the nearest ring that ringtap has")
    parser.add_argument(
        "-o",
        "--output",
        type=Path,
        metavar="FILE",
        help="the setup; a filter goes beside it, into FILE.ddd",
    )
    add_json(parser)
    return parser


@dataclass
class Answer:
    """The setup, the filter beside it, and what is to be warned of."""

    setup: str
    instructions: tuple[str, ...] = ()
    filter_name: str | None = None
    warnings: tuple[Warned, ...] = ()


def answer_of(args: argparse.Namespace) -> Answer:
    if args.suricata:
        return Answer(suricata_setup(args))
    text = read_bytes(args.shown).decode(errors="replace") if args.shown else shown_by_ss()
    sockets = [socket for socket in map(socket_of, entries(text)) if socket]
    group = chosen(groups_of(sockets), args)
    instructions = group[0].filter
    filter_name = f"{args.output}.ddd" if instructions and args.output else None
    if filter_name:
        refuse_name(filter_name)
    warnings = warnings_of(group[0], is_live=not args.shown)
    if instructions and not args.output and not args.json:
        said = f"the socket has a filter of {len(instructions)} instructions, which -o saves"
        warnings.append(Warned("filter_not_saved", said))
    return Answer(
        setup_of(group, args.captures, filter_name, args.fit),
        instructions,
        filter_name,
        tuple(warnings),
    )


def object_of(answer: Answer) -> dict[str, object]:
    """The setup's lines as numbers and words."""
    made: dict[str, object] = {}
    for line in answer.setup.splitlines():
        word, *values = line.split()
        if word in ("cpu", "flag"):
            made.setdefault(word, []).append(values[0])
        elif word != "#":
            made[word] = int(values[0]) if values[0].isdigit() else values[0]
    return {
        "setup": made,
        "filter": list(answer.instructions),
        "warnings": [warning.kind for warning in answer.warnings],
    }


def main(words: list[str]) -> int:
    args = parser_of().parse_args(words)
    if args.threads is not None and args.threads < 1:
        raise Fault("--threads: a number of at least 1")
    for name in args.captures:
        refuse_name(name)
    outputs = [args.output, Path(f"{args.output}.ddd")] if args.output else []
    check_outputs(outputs, [*map(Path, args.captures), *filter(None, [args.shown, args.suricata])])
    answer = answer_of(args)
    for warning in answer.warnings:
        print(f"{Path(sys.argv[0]).name}: {warning.words}", file=sys.stderr)
    lines = answer.setup.splitlines()
    if "mode rollover" in lines or "flag rollover" in lines:
        print(ROLLOVER_NOTE, file=sys.stderr)
    if answer.filter_name:
        write_text(
            Path(answer.filter_name),
            "\n".join([str(len(answer.instructions)), *answer.instructions]) + "\n",
        )
    if args.output:
        write_text(args.output, answer.setup)
    if args.json:
        print_json(object_of(answer))
    elif not args.output:
        print(answer.setup, end="")
    return 0
