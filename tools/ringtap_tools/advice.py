"""How other programs are asked for a ring: tcpdump and dumpcap by libpcap, and Suricata.

Each has a search of its own, over the ring that it makes: libpcap reserves 4 bytes more of each
packet, so captures whose frames are that much longer are looked at; Suricata's blocks have 32 KiB
and a time-out of 10 ms by its documentation, and it wasn't tried here.
"""
from __future__ import annotations

from dataclasses import dataclass, replace

from .captures import LARGEST_CAPTURE
from .files import Fault
from .ringsizes import Finder
from .search import Least, Model, keys_of
from .suricata_rings import DEFAULT_BLOCK, DEFAULT_TIMEOUT
from .trials import LEAST_BLOCKS, RESERVED, ROLLOVER, Ring, Trials, begun, longer

LIBPCAP_BLOCK, TCPDUMP_TIMEOUT, DUMPCAP_TIMEOUT = 262_144, 1000, 250
SURICATA_FRAME = 1600  # bytes of a block that it counts for a frame of 1,514
CLUSTERS = {"hash": "cluster_flow", "cpu": "cluster_cpu", "qm": "cluster_qm"}
MEBIBYTE = 1_048_576


@dataclass(frozen=True)
class Advice:
    """A program, how it is asked, and how much of that was tried here."""

    program: str
    lines: tuple[str, ...]
    blocks: int
    is_judged: bool  # by `ringtap replay`, and not by the tools' own model alone
    is_libpcap: bool = True

    def words(self) -> list[str]:
        if not self.is_libpcap:
            head = "not tried here: suricata.yaml, under af-packet, by its documentation"
            return [f"{head}{self.model_words()}:", *(f"    {line}" for line in self.lines)]
        how = "with the 4 bytes that libpcap has more before each packet"
        if not self.is_judged:
            return [f"{self.lines[0]}   ({how}{self.model_words()})"]
        return [f"{self.lines[0]}   (tried {how})"]

    def model_words(self) -> str:
        return (
            ""
            if self.is_judged
            else "; by the tool's own model alone, since ringtap can't make such a run"
        )

    def object(self) -> dict[str, object]:
        words = dict(line.split(": ", 1) for line in self.lines) if not self.is_libpcap else {}
        asked = words or {"command": self.lines[0]}
        return {**asked, "blocks": self.blocks, "is_judged": self.is_judged}


def least_of(
    finder: Finder, trials: Trials, model: Model, ring: Ring, keys: int = 0
) -> tuple[Least, bool]:
    """The smallest ring of a program, of a hash under the worst of so many further keys, and
    whether that was judged."""
    worst = keys_of(model, ring, keys).worst
    least = finder.find(model, trials, ring, worst)[0]
    model = model.with_pace(begun(model.pace, least.begin))
    return least, judged(trials, model, ring, least)


def judged(trials: Trials, model: Model, ring: Ring, least: Least) -> bool:
    """Whether the program counts what the model does, and so no freeze. Where no setup has such a
    ring nothing is run; where a filter cuts frames libpcap's bytes can't be put into them."""
    ring = replace(ring, block_nr=max(least.count, LEAST_BLOCKS))
    if not ring.fits:
        return False
    report = trials.run(ring, least.phase, key=least.key, begin=least.begin)
    mine = [course.counts() for course in model.courses(ring, least.phase, least.key)]
    return mine == [(one.packets, one.drops, one.freezes, one.blocks) for one in report.members]


def advice_of(
    finder: Finder, trials: Trials, model: Model, ring: Ring, is_reserved: bool, keys: int
) -> list[Advice]:
    """How programs are asked for rings that never freeze, of what the answer's ring is for."""
    found = without_reserve(finder, trials, model, ring, keys if ring.mode == "hash" else 0)
    timeouts = (
        {TCPDUMP_TIMEOUT, DUMPCAP_TIMEOUT} if ring.timeout == TCPDUMP_TIMEOUT else {ring.timeout}
    )
    if (ring.block_size, ring.members) != (LIBPCAP_BLOCK, 1):
        return found
    if not is_reserved and not use_longer(trials):
        return found
    model = model.with_reserve(RESERVED)
    trials.reads = model.reads if model.pace.poll is not None else None
    for timeout in sorted(timeouts & {TCPDUMP_TIMEOUT, DUMPCAP_TIMEOUT}):
        found.insert(0, libpcap(finder, trials, model, replace(ring, timeout=timeout)))
    return found


def without_reserve(
    finder: Finder, trials: Trials, model: Model, ring: Ring, keys: int
) -> list[Advice]:
    """Suricata's ring, of the captures as they are."""
    captures, reads = trials.captures, trials.reads
    model = model.with_reserve(0)
    trials.captures, trials.reads = None, model.reads if reads else None
    found = suricata(finder, trials, model, ring, keys)
    trials.captures, trials.reads = captures, reads
    return found


def use_longer(trials: Trials) -> bool:
    """Makes runs of the same captures with libpcap's bytes; False where these come out too
    large."""
    room = trials.room
    trials.captures = [
        longer(stream, room.folder / f"longer{cpu}.pcap")
        for cpu, stream in enumerate(room.streams())
    ]
    sizes = [(room.folder / name).stat().st_size for name in trials.captures]
    return max(sizes) <= LARGEST_CAPTURE


def make_longer(trials: Trials) -> None:
    """The same where the ring itself is one of libpcap's."""
    if not use_longer(trials):
        raise Fault(
            f"{trials.room.setup.path}: with libpcap's bytes its captures are more than the 32 MiB"
            " that ringtap reads"
        )
    trials.reserved = RESERVED


def libpcap(finder: Finder, trials: Trials, model: Model, ring: Ring) -> Advice:
    """The ring of tcpdump or of dumpcap, whose time-outs differ."""
    least, is_judged = least_of(finder, trials, model, ring)
    blocks = max(least.count, LEAST_BLOCKS)
    size = blocks * ring.block_size
    is_tcpdump = ring.timeout == TCPDUMP_TIMEOUT
    line = f"tcpdump -B {size // 1024}" if is_tcpdump else f"dumpcap -B {-(-size // MEBIBYTE)}"
    return Advice(line.split()[0], (line,), blocks, is_judged)


def suricata(
    finder: Finder, trials: Trials, model: Model, ring: Ring, keys: int
) -> list[Advice]:
    """Suricata's own ring of as many members, where it has the mode."""
    mode = ring.mode
    if ring.members > 1 and mode not in CLUSTERS or mode.endswith(ROLLOVER) or mode == "rollover":
        return []
    its = replace(
        ring,
        block_size=DEFAULT_BLOCK,
        timeout=DEFAULT_TIMEOUT,
        block_nr=LEAST_BLOCKS,
        frame_size=min(ring.frame_size, DEFAULT_BLOCK),
    )
    least, is_judged = least_of(finder, trials, model, its, keys)
    blocks = max(least.count, LEAST_BLOCKS)
    lines = [
        f"block-size: {DEFAULT_BLOCK}",
        f"ring-size: {blocks * (DEFAULT_BLOCK // SURICATA_FRAME) - 1}",
        f"block-timeout: {DEFAULT_TIMEOUT}",
    ]
    if ring.members > 1:
        lines += [f"threads: {ring.members}", f"cluster-type: {CLUSTERS[mode]}"]
    return [Advice("suricata", tuple(lines), blocks, is_judged, False)]
