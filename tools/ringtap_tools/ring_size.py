"""Names the smallest ring that never freezes over some captures, and how to ask tcpdump, dumpcap
and Suricata for it.

Give the captures of the CPUs, one each, or a setup. A grid of rings is tried: every block size,
number of blocks, time-out, number of members and mode that is given with each of the others. It
isn't known when a program starts its timer, so every whole millisecond of it is looked at, by the
program ringsize where it is there, which looks at every beginning of the reader too, and else by a
model of the tool's own; `ringtap replay` then judges where the ring has to be so large: there it
never freezes, and one block less freezes. With --replay2 it is the same for slots, which have no
timer, and for losses. With --phases and with rollover `ringtap replay` itself is run at so many
phases, the number of blocks being doubled and then halved to the smallest that loses nothing.

The feeds have the captures' own times, or a rate. The memory is that of the blocks of all
members together. The status is 0 where a ring suffices, 3 where none does, and 4 where the
captures give no answer: no frame, all filtered, or only a part of them was read.
"""
from __future__ import annotations

import argparse
import itertools
import sys
import tempfile
from dataclasses import replace
from fractions import Fraction
from pathlib import Path
from typing import Callable

from .about import NO_ANSWER, NoAnswer, about_words, refuse_filtered, refuse_parts
from .advice import LIBPCAP_BLOCK, TCPDUMP_TIMEOUT, advice_of, make_longer
from .answers import Search, every_phase, few_phases, kernel_drops, rolls_over
from .captures import GZIP_MAGIC, PCAP_UNITS, PCAPNG_MAGIC
from .clock import Pace
from .files import MODES, NANOSECONDS, CpuLine, Fault, Setup, read_setup, refuse_name
from .filters import compiled
from .notes import rollover_note
from .outputs import check_folder, check_outputs, write_text
from .readers import Explained, explain
from .refusals import KEY, unknown_mode
from .ringsizes import Asker, Finder, ringsize_of
from .runs import Room, add_program, program_of
from .schedule import Fed, add_pace, feeds, pace_of
from .search import FEW_PHASES, Model
from .size_pictures import drops_picture, packets_picture
from .size_words import Answer, member_rows, object_of, print_words, table_text
from .svg_plot import check_picture, save_picture
from .trials import (
    LARGEST_BLOCK,
    LEAST_BLOCKS,
    MOST_BLOCKS,
    PAGE,
    RESERVED,
    ROLLOVER,
    Result,
    Ring,
    Trials,
    changes_of,
    least_of,
    repeat,
)
from .words import ToolParser, add_json, print_json

MOST_MEMBERS, MOST_CPUS, MOST_PHASES = 8, 8, 1000
MOST_TIMEOUT = 60_000  # milliseconds
NONE_SUFFICES = 3  # the status
KEYS, MOST_KEYS, MOST_LOOPS = 16, 256, 10_000
RESERVED_MARK = "PACKET_RESERVE 4"  # in a setup that ring_of.py wrote of a program of libpcap
# What is taken for captures alone: the ring that tcpdump asks for, and a reader that comes ten
# times a second.
V2_BLOCK, FRAME_SIZE, PAUSE = 65_536, 2048, Fraction(100)


def numbers(least: int, most: int, step: int = 1) -> Callable[[str], list[int]]:
    """Reads numbers between commas; K and M after one count 1,024 and 1,048,576."""

    def read(text: str) -> list[int]:
        read_ones = []
        for word in text.split(","):
            unit = {"K": 1024, "M": 1024 * 1024}.get(word[-1:].upper(), 1)
            digits = word if unit == 1 else word[:-1]
            number = (
                int(digits) * unit
                if digits.isascii() and digits.isdigit() and len(digits) <= 10
                else -1
            )
            if not least <= number <= most or number % step:
                multiple = f", a multiple of {step}" if step > 1 else ""
                raise argparse.ArgumentTypeError(
                    f"{word!r} isn't right: numbers between commas, each from {least} to"
                    f" {most}{multiple}"
                )
            read_ones.append(number)
        return list(dict.fromkeys(read_ones))

    return read


def modes(text: str) -> list[str]:
    allowed = [*MODES, *(mode + ROLLOVER for mode in MODES if mode != "rollover")]
    for word in text.split(","):
        if word not in allowed:
            more = f", and hash{ROLLOVER} for one with the flag"
            raise argparse.ArgumentTypeError(f"{word!r}: {unknown_mode(word)}{more}")
    return list(dict.fromkeys(text.split(",")))


def is_capture(path: Path) -> bool:
    """Whether a file begins as a capture does, or at least not as a text."""
    try:
        with open(path, "rb") as file:
            # a pipe can be read once, so it is taken for a capture
            head = file.peek(4)[:64] if file.seekable() else PCAPNG_MAGIC
    except OSError as error:
        raise Fault(f"{path}: can't be read: {error.strerror}") from None
    magics = [magic.to_bytes(4, order) for magic in PCAP_UNITS for order in ("little", "big")]
    return head.startswith((PCAPNG_MAGIC, GZIP_MAGIC, *magics)) or any(byte < 9 for byte in head)


def setup_of(paths: list[Path], is_v2: bool) -> Setup:
    """The setup that is named, or one for captures."""
    found = [is_capture(path) for path in paths]
    if not any(found):
        if len(paths) > 1:
            raise Fault(f"{paths[1]}: isn't a capture; one setup is taken, or captures")
        return read_setup(paths[0])
    if not all(found):
        raise Fault(
            f"{paths[found.index(False)]}: isn't a capture; one setup is taken, or captures"
        )
    if len(paths) > MOST_CPUS:
        raise Fault(f"{len(paths)} captures, and ringtap has at most {MOST_CPUS} CPUs")
    block = V2_BLOCK if is_v2 else LIBPCAP_BLOCK
    lines = [
        f"block_size {block}",
        f"block_nr {LEAST_BLOCKS}",
        f"frame_size {FRAME_SIZE}",
        f"frame_nr {block // FRAME_SIZE * LEAST_BLOCKS}",
    ]
    # names, which may have blanks, come in when it is used
    lines += [f"tov {TCPDUMP_TIMEOUT}"] * (not is_v2) + [f"cpu {cpu}" for cpu in range(len(paths))]
    setup = Setup(
        paths[0],
        lines,
        {word: [value] for word, value in (line.split(" ", 1) for line in lines) if word != "cpu"},
    )
    setup.cpus = [CpuLine(str(path), cpu, 0) for cpu, path in enumerate(paths)]
    return setup


def is_made(setup: Setup) -> bool:
    """Whether a setup was made here, for captures."""
    return bool(setup.cpus) and setup.cpus[0].line == 0


def grid_of(setup: Setup, args: argparse.Namespace) -> list[Ring]:
    """The rings to be tried, without those that are larger than ringtap has them."""
    sizes = args.block_size or [setup.number("block_size")]
    counts = args.block_nr or [LEAST_BLOCKS]
    timeouts = args.tov or [setup.number("tov", 0)]
    members = args.members or [setup.members()]
    flag = ROLLOVER if "rollover" in setup.flags else ""
    chosen = args.mode or [f"{setup.word('mode', 'cpu')}{flag}"]
    if any(mode.startswith("hash") for mode in chosen) and "key" not in setup.values:
        chosen_key(setup)
    frame_size = setup.number("frame_size")
    rings = [
        Ring(mode, member, timeout, size, count, max(1, min(frame_size, size)), args.replay2)
        for mode, member, timeout, size, count in itertools.product(
            chosen, members, timeouts, sizes, counts
        )
    ]
    grid = [ring for ring in rings if ring.fits]
    if not grid:
        raise Fault(
            "no ring to try: all have more than 64 MiB, or more than 65,536 slots, the most that"
            " ringtap has"
        )
    return grid


def chosen_key(setup: Setup) -> None:
    """Gives the usual key of receive side scaling to a setup that was made here; another has to
    have its own."""
    if not is_made(setup):
        raise Fault(f'{setup.path}: has no line "key", and mode hash needs one, as "key {KEY}"')
    setup.lines.append(f"key {KEY}")
    setup.values["key"] = [KEY]


def reader_words(pace: Pace, unit: str) -> str:
    """What the readers do, in words."""
    if pace.poll is not None:
        delay = f" {float(pace.poll):g} ms after" if pace.poll else " when"
        one = "slot" if unit == "slots" else "block"
        words = f"each reader wakes{delay} a {one} is handed over, then takes all that is there"
    elif pace.blocks:
        words = f"each reader takes {float(pace.blocks):g} {unit} a second"
    elif pace.bytes:
        words = f"each reader takes {unit} of {float(pace.bytes):g} bytes in all a second"
    elif pace.pause:
        words = f"each reader sleeps {float(pace.pause):g} ms, then takes all that is there"
    else:
        return "nobody reads before all frames are fed"
    stalls = " and ".join(
        f"{float(start):g} ms on for {float(length):g} ms" for start, length in pace.stalls
    )
    return words + (f", but not from {stalls}" if stalls else "")


def opening(setup: Setup, args: argparse.Namespace, pace: Pace, is_default: bool) -> str:
    """The first line: what the answer rests on, and what of it was asked by nobody."""
    words = reader_words(pace, "slots" if args.replay2 else "blocks")
    if not is_made(setup):
        return words
    parts = [f"frame_size {FRAME_SIZE}"]
    parts += [f"tov {TCPDUMP_TIMEOUT}"] * (not args.replay2 and not args.tov)
    parts += [f"block_size {setup.number('block_size')}"] * (not args.block_size)
    parts += ["the usual key"] * ("key" in setup.values)
    if is_default:
        return f"by default: {', '.join([*parts, words])}"
    return f"by default: {', '.join(parts)}; as asked: {words}"


def picture_names(args: argparse.Namespace) -> list[Path]:
    """What is saved with the pictures."""
    kind = "png" if args.png else "svg"
    return (
        [args.pictures / name for name in ("table.csv", f"drops.{kind}", f"packets.{kind}")]
        if args.pictures
        else []
    )


def save_all(
    args: argparse.Namespace, results: list[Result], rows: list[list[object]], title: str
) -> None:
    """Saves the pictures, and the table that they are drawn from."""
    try:
        args.pictures.mkdir(parents=True, exist_ok=True)
    except OSError as error:
        raise Fault(f"{args.pictures}: can't be made: {error.strerror}") from None
    table_name, drops, packets = picture_names(args)
    write_text(table_name, table_text(results))
    save_picture(drops, drops_picture(results, least_of(results), title))
    save_picture(packets, packets_picture(rows, title))


def parser_of() -> argparse.ArgumentParser:
    parser = ToolParser(__doc__, "demo/lo.pcap --pictures made")
    parser.add_argument(
        "inputs",
        type=Path,
        nargs="+",
        metavar="SETUP|CAPTURE",
        help="a setup, or the capture of each CPU (pcap, pcapng, gzip)",
    )
    grid = parser.add_argument_group("grid", "numbers stand between commas, as 4K,64K,1M")
    grid.add_argument(
        "--block-size",
        type=numbers(PAGE, LARGEST_BLOCK, PAGE),
        metavar="N,..",
        help="bytes of a block",
    )
    grid.add_argument(
        "--block-nr",
        type=numbers(LEAST_BLOCKS, MOST_BLOCKS),
        metavar="N,..",
        help="blocks (2, 4, 8 and so on until nothing is lost)",
    )
    grid.add_argument("--tov", type=numbers(0, MOST_TIMEOUT), metavar="MS,..", help="time-outs")
    grid.add_argument(
        "--members", type=numbers(1, MOST_MEMBERS), metavar="M,..", help="members of the group"
    )
    grid.add_argument(
        "--mode",
        type=modes,
        metavar="MODE,..",
        help=f"of {', '.join(MODES)}; hash{ROLLOVER} is hash with `flag rollover`",
    )
    grid.add_argument(
        "--replay2",
        action="store_true",
        help="rings of TPACKET_V2: slots of frame_size bytes, and no timer",
    )
    add_pace(parser, has_phase=False)
    parser.add_argument(
        "--loop",
        type=int,
        default=1,
        metavar="N",
        help="the captures come N times, one after another (1)",
    )
    parser.add_argument(
        "--phases",
        type=int,
        metavar="N",
        help=(
            "run the program at N phases of the timer, evenly over a time-out (all, by a model;"
            f" with rollover {FEW_PHASES})"
        ),
    )
    parser.add_argument(
        "--keys",
        type=int,
        default=KEYS,
        metavar="N",
        help=(
            f"for mode hash so many other keys beside the setup's ({KEYS}), since a kernel's is"
            " secret"
        ),
    )
    parser.add_argument(
        "--lost",
        type=int,
        metavar="N",
        help=(
            "which readers explain that the setup's ring lost N packets, and which ring suffices"
            " for them"
        ),
    )
    parser.add_argument(
        "--filter",
        metavar="EXPR",
        help=(
            "a filter, which `tcpdump -y EN10MB -ddd` compiles; with -o FILE it goes into FILE.ddd"
        ),
    )
    parser.add_argument(
        "--libpcap",
        action="store_true",
        help="the program reserves 4 bytes more of each packet, as all of libpcap's do",
    )
    parser.add_argument(
        "-o",
        "--output",
        type=Path,
        metavar="FILE",
        help="saves a setup with the smallest ring that suffices",
    )
    parser.add_argument(
        "--pictures",
        type=Path,
        metavar="FOLDER",
        help="draws drops.svg and packets.svg there, beside table.csv",
    )
    parser.add_argument(
        "--png", action="store_true", help="draws PNG in place of SVG, where rsvg-convert is there"
    )
    parser.add_argument("--jobs", type=int, default=1, metavar="N", help="makes N runs at once (1)")
    add_json(parser)
    add_program(parser)
    return parser


def check_words(args: argparse.Namespace, setup: Setup, pace: Pace) -> None:
    """What options alone, or with the setup, show to be wrong, before anything is run."""
    if args.png and not args.pictures:
        raise Fault("--png: says how pictures are drawn, and --pictures where")
    if args.phases is not None and not 1 <= args.phases <= MOST_PHASES:
        raise Fault(f"--phases: a number from 1 to {MOST_PHASES}")
    if args.jobs < 1:
        raise Fault("--jobs: a number from 1 on")
    if not 0 <= args.keys <= MOST_KEYS:
        raise Fault(f"--keys: a number from 0 to {MOST_KEYS}")
    if not 1 <= args.loop <= MOST_LOOPS:
        raise Fault(f"--loop: a number from 1 to {MOST_LOOPS:,}")
    if args.lost is not None and (args.lost < 1 or args.replay2 or is_made(setup)):
        raise Fault(
            "--lost: a number from 1 on, of the ring of blocks that a setup has, so give a setup"
        )
    if pace.stalls and not pace.has_reader:
        raise Fault(
            "--stall: says when no reader reads, and nobody reads at all: --blocks, --bytes,"
            " --pause or --poll gives a reader"
        )
    if args.replay2 and args.tov:
        raise Fault("--tov: a ring of TPACKET_V2 has no time-out")
    if args.output and is_made(setup):
        for cpu in setup.cpus:
            check_name(cpu.name)
    if args.output and args.filter is not None:
        refuse_name(str(filter_path(args.output)))
    names = picture_names(args)
    if args.pictures:
        check_folder(args.pictures)
        for name in names[1:]:
            check_picture(name)
    beside = [filter_path(args.output)] if args.output and args.filter is not None else []
    check_outputs(
        [args.output, *beside, *(name for name in names if args.pictures.is_dir())],
        args.inputs,
        setup,
    )


def check_name(name: str) -> None:
    """Whether a capture can be named in a setup that ringtap takes."""
    refuse_name(name)
    with open(name, "rb") as file:
        if file.read(len(GZIP_MAGIC)) == GZIP_MAGIC:
            raise Fault(
                f"-o: {name} is gzip, which ringtap doesn't read: `gzip -dk {name}` unpacks it"
            )


def pace_for(args: argparse.Namespace, setup: Setup) -> tuple[Pace, bool]:
    """The pace, and whether its reader is the one that captures have by default."""
    has_reader = args.blocks or args.bytes or args.pause or args.poll is not None
    is_default = is_made(setup) and not has_reader
    if is_default:
        args.pause = PAUSE
    return pace_of(args), is_default


def title_of(setup: Setup, fed: Fed, words: str) -> str:
    """What a picture is of: the captures and the reader."""
    names = [path.name for path in setup.capture_paths()]
    shown = ", ".join(names[:2]) + (f" and {len(names) - 2} more" if len(names) > 2 else "")
    return f"{shown}: {len(fed.times):,} frames in {fed.end / NANOSECONDS:.3f} s; {words}"


def save_setup(path: Path, setup: Setup, least: Result, instructions: str | None) -> None:
    changes = changes_of(least.ring, "rollover" in setup.flags)
    if instructions:
        write_text(filter_path(path), instructions)
        changes["filter"] = str(filter_path(path))
    write_text(path, setup.with_changes(changes, [cpu.name for cpu in setup.cpus]))


def filter_path(output: Path) -> Path:
    return output.with_name(f"{output.name}.ddd")


def take_filter(setup: Setup, instructions: str, folder: str) -> None:
    """Gives a filter to a setup that has none."""
    if "filter" in setup.values:
        raise Fault(
            f"{setup.path}, line {setup.places['filter']}: has a filter already, and --filter gives"
            " another"
        )
    path = Path(folder) / "filter.ddd"
    write_text(path, instructions)
    setup.lines.append(f"filter {path}")
    setup.values["filter"], setup.places["filter"] = [str(path)], len(setup.lines)


# ---- the search


def looks_at_all(args: argparse.Namespace, grid: list[Ring], model: Model) -> bool:
    """Whether every whole millisecond is looked at: not with rollover."""
    if args.phases is not None or any(map(rolls_over, grid)):
        return False
    return args.replay2 or model.timer(grid[0], 0).every > 0


def found(
    room: Room, args: argparse.Namespace, pace: Pace, setup: Setup, grid: list[Ring]
) -> Answer:
    """Everything that is worked out."""
    if args.loop > 1:
        repeat(room, args.loop)
    fed = feeds(room.streams(), pace)
    refuse_parts(fed.about)
    timed = list(room.captures)  # before the model puts numbers into their times
    is_reserved = reserves(args, setup)
    model = Model(room, fed, pace, RESERVED * is_reserved)
    trials = Trials(room, fed, pace, args.phases or FEW_PHASES, args.jobs)
    if is_reserved:
        make_longer(trials)
    trials.reads = model.reads if pace.poll is not None else None
    ringsize = ringsize_of(room.program)
    finder = Finder(Asker(ringsize, room, timed, trials.has_flag) if ringsize else None)
    search = Search(trials, model, args.keys, finder)
    is_open = not args.block_nr
    if looks_at_all(args, grid, model):
        results, least = every_phase(search, grid, is_open)
        said, filtered = search.judgement, search.filtered
    else:
        is_sure = args.phases is None
        results, least, said = few_phases(trials, grid, is_open, args.keys * is_sure, is_sure)
        filtered = results[0].worst.filtered
        refuse_filtered(fed.about, results[0].worst.arrivals, filtered)
    kernel, rows, asked = kernel_drops(model, results), member_rows(trials, results), []
    if least and not args.replay2:
        asked = advice_of(finder, trials, model, least.ring, is_reserved, args.keys)
    return Answer(
        results,
        least,
        rows,
        asked,
        fed,
        filtered,
        said,
        search.key_words,
        search.key_needs,
        kernel,
        sorted(search.finders),
        pace,
    )


def reserves(args: argparse.Namespace, setup: Setup) -> bool:
    """Whether the ring is one of libpcap's, by the option or by the setup."""
    return args.libpcap or any(RESERVED_MARK in line for line in setup.lines)


def print_explained(args: argparse.Namespace, ring: Ring, found: Explained) -> int:
    """The readers that explain a counter."""
    if args.json:
        print_json(found.object() | {"lost": args.lost, "ring": ring.block_nr})
    else:
        said = [one.words(ring) for one in found.readings]
        print(
            f"{args.lost:,} packets lost by {ring.words()} are explained, by the tool's own"
            " model, by"
        )
        print("\n".join(said or ["no phase, stop or speed of a reader that was tried"]))
        if said:
            print(
                f"the largest ring that any of these needs: {found.blocks} blocks of"
                f" {ring.block_size} bytes"
            )
        print(found.tried)
        print(f"\n{about_words(found.about, found.filtered)}")
    return 0 if found.readings else NONE_SUFFICES


def lost_explained(
    room: Room, args: argparse.Namespace, pace: Pace, setup: Setup, grid: list[Ring]
) -> int:
    """Which readers lose so many packets over the setup's ring."""
    ring = replace(grid[0], block_nr=setup.number("block_nr"))
    if rolls_over(ring):
        raise Fault("--lost: not for a group that rolls over, whose members don't stand alone")
    if args.loop > 1:
        repeat(room, args.loop)
    if not pace.has_reader:
        pace = replace(pace, pause=PAUSE)
    phases = args.phases or FEW_PHASES
    found = explain(room, pace, ring, args.lost, phases, reserves(args, setup))
    return print_explained(args, ring, found)


def refuse_rings(room: Room, grid: list[Ring]) -> None:
    """Ends the tool where the program has not one of the rings."""
    for ring in grid:
        room.refuse(changes_of(ring, "rollover" in room.setup.flags, "nowhere"))


def main(words: list[str]) -> int:
    args = parser_of().parse_args(words)
    program, setup = program_of(args.program), setup_of(args.inputs, args.replay2)
    pace, is_default = pace_for(args, setup)
    check_words(args, setup, pace)
    grid = grid_of(setup, args)
    instructions = compiled(args.filter) if args.filter is not None else None
    for note in rollover_note(setup, [ring.mode for ring in grid if ring.members > 1]):
        print(note, file=sys.stderr)
    try:
        with tempfile.TemporaryDirectory(prefix="ringtap-") as folder:
            if instructions:
                take_filter(setup, instructions, folder)
            with Room(setup, program) as room:
                if not args.replay2:  # before the model counts with what no ring has
                    refuse_rings(room, grid)
                if args.lost is not None:
                    return lost_explained(room, args, pace, setup, grid)
                answer = found(room, args, pace, setup, grid)
    except NoAnswer as fault:
        print(f"{Path(sys.argv[0]).name}: {fault}", file=sys.stderr)
        return NO_ANSWER
    least = answer.least
    if args.json:
        print_json(object_of(answer))
    else:
        print_words(opening(setup, args, pace, is_default), answer)
    if args.pictures:
        unit = "slots" if args.replay2 else "blocks"
        save_all(
            args, answer.results, answer.rows, title_of(setup, answer.fed, reader_words(pace, unit))
        )
    if args.output and least:
        save_setup(args.output, setup, least, instructions)
    made = [*picture_names(args), *([args.output] if args.output and least else [])]
    if made and not args.json:
        print(f"\nsaved: {', '.join(map(str, made))}")
    return 0 if least else NONE_SUFFICES
