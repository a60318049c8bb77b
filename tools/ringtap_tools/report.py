"""Makes one page of a capture or a setup that any browser opens: what the captures are, which ring
never freezes, how full a ring gets, and what smaller ones lose.

The page is one file and needs no network. Its numbers are those that ring_size.py, timeline.py
and lost.py print as JSON, and stand in it once more as JSON. Of a setup its own ring is shown
over time, of captures the largest ring that is too small, at the phase of the timer at which it
loses most. Tables are sorted by a click on a head.
"""
from __future__ import annotations

import argparse
import json
import subprocess
import sys
from html import escape
from pathlib import Path

from .about import NO_ANSWER, NoAnswer, about_words
from .files import Fault, Setup
from .notes import rollover_note
from .outputs import check_outputs, write_text
from .ring_size import NONE_SUFFICES, is_made, reader_words, setup_of
from .runs import Progress, Room, add_program, program_of
from .schedule import DEFAULT_TIMEOUT, About, add_pace, pace_of
from .svg_plot import kib
from .words import ToolParser, add_json, print_json

HERE = Path(__file__).resolve().parent.parent  # where the commands are
BINS, FLOWS = 40, 20
DEFAULT_PAUSE = "100"
STYLE = """
:root{color-scheme:light dark;--ink:#222;--page:#fff;--line:#ccc;--shade:#999;--soft:#f3f5f7;
--link:#0072b2}
@media (prefers-color-scheme:dark){:root{--ink:#e6e6e6;--page:#16181b;--line:#444;
--shade:#777;--soft:#22262b;--link:#56b4e9}
.picture svg{filter:invert(.91) hue-rotate(180deg)}}
body{font:16px/1.5 system-ui,sans-serif;color:var(--ink);background:var(--page);
margin:0 auto;max-width:60rem;padding:1rem}
h1{font-size:1.5rem}h2{font-size:1.2rem;margin-top:2rem}
.answer{border-left:.3rem solid var(--link);background:var(--soft);padding:.6rem .8rem}
.picture,.table{overflow-x:auto;margin:1rem 0;
background:linear-gradient(to left,var(--page) 40%,transparent) right/2.5rem 100% no-repeat local,
linear-gradient(to left,var(--shade),transparent) right/1rem 100% no-repeat scroll}
.picture svg{min-width:34rem;max-width:100%;height:auto}
.picture svg>rect:first-of-type{fill:transparent}
table{border-collapse:collapse;font-variant-numeric:tabular-nums}
th,td{padding:.2rem .6rem;border-bottom:1px solid var(--line);text-align:right;white-space:nowrap}
th{cursor:pointer;background:var(--soft)}th:first-child,td:first-child{text-align:left}
th[aria-sort=ascending]::after{content:" \\2191"}th[aria-sort=descending]::after{content:" \\2193"}
"""
SCRIPT = """
for (const head of document.querySelectorAll("th")) head.addEventListener("click", () => {
  const table = head.closest("table"), at = [...head.parentNode.children].indexOf(head);
  const rises = head.getAttribute("aria-sort") !== "ascending";
  for (const other of head.parentNode.children) other.removeAttribute("aria-sort");
  head.setAttribute("aria-sort", rises ? "ascending" : "descending");
  const key = row => row.children[at].dataset.value ?? row.children[at].textContent;
  const order = (a, b) => isNaN(key(a)) || isNaN(key(b))
    ? key(a).localeCompare(key(b)) : key(a) - key(b);
  const rows = [...table.tBodies[0].rows].sort((a, b) => rises ? order(a, b) : order(b, a));
  table.tBodies[0].append(...rows);
});
"""


class Work:
    """The tools, run in a folder of the report's own."""

    def __init__(self, room: Room, words: list[str], progress: Progress) -> None:
        self.room, self.words, self.progress = room, words, progress

    def run(self, name: str, *words: str, statuses: tuple[int, ...] = (0,)) -> str:
        command = [sys.executable, "-B", str(HERE / name), *words]
        done = subprocess.run(
            command, cwd=self.room.folder, capture_output=True, text=True, errors="replace"
        )
        self.progress.step()
        if done.returncode not in statuses:
            kind = NoAnswer if done.returncode == NO_ANSWER else Fault
            raise kind(self.named(done.stderr.strip() or done.stdout.strip()))
        return done.stdout

    def named(self, said: str) -> str:
        """What a tool says, with the names that the captures have outside."""
        for name, path in zip(self.room.captures, self.room.setup.capture_paths()):
            said = said.replace(name, str(path))
        return said or "a tool ended without a word"

    def object(self, name: str, *words: str, statuses: tuple[int, ...] = (0,)) -> dict:
        more = ["--program", str(self.room.program), "--json"]
        return json.loads(self.run(name, *words, *more, statuses=statuses))

    def picture(self, name: str, names: dict[str, str]) -> str:
        """A picture with names that say something in place of those of the folder."""
        text = (self.room.folder / name).read_text(encoding="utf-8")
        for old, new in names.items():
            text = text.replace(old, escape(new))
        return text[text.index("<svg") :]


def reader_options(args: argparse.Namespace, setup: Setup) -> list[str]:
    """The words of the reader and of the frames' times, as the tools take them."""
    words = []
    for name in ("speed", "pps", "mbps", "blocks", "bytes", "pause", "poll"):
        value = getattr(args, name)
        if value is not None and (name, value) != ("speed", 1):
            words += [f"--{name}", str(value)]
    if args.tick is not None:
        words += ["--tick", str(args.tick)]
    if args.begin is not None:
        words += ["--from", str(args.begin)]
    for start, length in args.stall:
        words += ["--stall", f"{start}:{length}"]
    if is_made(setup) and not any(
        getattr(args, name) is not None for name in ("blocks", "bytes", "pause", "poll")
    ):
        words += ["--pause", DEFAULT_PAUSE]
    return words


def chosen_ring(found: dict, setup: Setup) -> dict:
    """The ring that is shown over time."""
    rings = found["rings"]
    if not is_made(setup):
        own = [ring for ring in rings if ring["block_nr"] == setup.number("block_nr")]
        if own:
            return own[0]
    losing = [ring for ring in rings if ring["drops"]]
    return losing[-1] if losing else rings[0]


def gathered(work: Work, setup: Setup) -> dict:
    """The numbers and pictures of all tools."""
    room = work.room
    (room.folder / "pictures").mkdir()
    sizes = ["ring_size.py", "setup.txt", "--pictures", "pictures", *work.words]
    found = work.object(*sizes, statuses=(0, NONE_SUFFICES))
    if not is_made(setup) and setup.number("block_nr") not in [
        ring["block_nr"] for ring in found["rings"]
    ]:
        own = work.object(
            "ring_size.py",
            "setup.txt",
            "--block-nr",
            setup.word("block_nr") or "2",
            *work.words,
            statuses=(0, NONE_SUFFICES),
        )
        found["rings"] = sorted(found["rings"] + own["rings"], key=lambda ring: ring["block_nr"])
    ring = chosen_ring(found, setup)
    count = ring["block_size"] // max(1, setup.number("frame_size")) * ring["block_nr"]
    changes = {"block_nr": str(ring["block_nr"]), "frame_nr": str(count)}
    changes |= {"key": ring["key"]} if ring["key"] else {}  # under which it loses most
    room.write_setup("shown.txt", changes | {"out": "shown", "dump": None})
    phase = ["--phase", str(ring["phase"])]
    if ring["from"] is not None:
        phase += ["--from", str(ring["from"])]
    poll = ["--program", str(room.program)]
    work.run("schedule.py", "shown.txt", *work.words, *phase, *poll, "-o", "shown.sched")
    steps = work.object("timeline.py", "shown.txt", "shown.sched", "--picture", "fill.svg")
    lost = work.object(
        "lost.py", "shown.txt", "shown.sched", "--bins", str(BINS), "--picture", "lost.svg"
    )
    return {"sizes": found, "shown": ring, "members": steps["members"], "lost": lost}


def rows_of(heads: list[str], rows: list[list[object]]) -> str:
    """A table whose numbers are sorted as numbers."""

    def cell(value: object) -> str:
        if isinstance(value, (int, float)):
            return f'<td data-value="{value}">{value:,}</td>'
        return f"<td>{escape(str(value))}</td>"

    top = "".join(f"<th scope=col>{escape(head)}</th>" for head in heads)
    body = "".join("<tr>" + "".join(map(cell, row)) + "</tr>" for row in rows)
    return (
        "<div"
        f' class="table"><table><thead><tr>{top}</tr></thead><tbody>{body}</tbody></table></div>'
    )


def answer_words(found: dict) -> str:
    least = found["least"]
    if least is None:
        return "Every ring that was tried loses packets."
    where = ", at every whole millisecond of the timer" if found["is_every_millisecond"] else ""
    where += " and of the reader's beginning" if found["is_every_beginning"] else ""
    does = "never freezes" if found["is_every_millisecond"] else "loses nothing"
    return (
        f"The smallest ring that {does}{where}: <b>{least['block_nr']} blocks of"
        f" {least['block_size']:,} bytes</b>, time-out {least['tov'] or DEFAULT_TIMEOUT} ms,"
        f" {kib(least['memory'])} in all."
    )


def finder_words(found: dict) -> str:
    """Who found the answer."""
    if not found["found_by"]:
        return "Found by"
    is_asked = found["found_by"] == ["ringsize"]
    whose = "<code>ringsize</code>" if is_asked else "the tools' own model"
    return f"Found by {whose} and judged by"


def begin_words(found: dict) -> str:
    """What is assumed of the reader's beginning, where not all were tried."""
    first = found["reader"]["first_step"]
    if first is None or found["is_every_beginning"]:
        return ""
    return f", first {first:g} ms after the first frame"


# Of what is known of some rings alone: a column's head, and where it is in the JSON.
MORE_COLUMNS = {
    "fewest, any key": ("by_keys", "all", 0),
    "most, any key": ("by_keys", "all", 1),
    "most, as a kernel rolls over": ("kernel_drops",),
}


def losses_words(rings: list[dict]) -> str:
    """What the table of losses has."""
    said = (
        "Packets dropped at the best and at the worst phase of the timer, that phase in"
        " milliseconds, and how often the ring freezes there."
    )
    if any(ring["by_keys"] for ring in rings):
        said += (
            " These are under the key, of those tried, that needs the largest ring; beside them"
            " what is dropped under any of them, at some phases."
        )
    return said


def sizes_table(rings: list[dict]) -> str:
    """What each ring loses."""
    heads = ["blocks", "bytes", "fewest", "most", "worst phase", "freezes"]
    names = ("block_nr", "memory", "fewest", "drops", "phase", "freezes")
    rows = [[ring[name] for name in names] for ring in rings]
    for head, (name, *places) in MORE_COLUMNS.items():
        if any(ring[name] is None for ring in rings):
            continue
        heads.append(head)
        for row, ring in zip(rows, rings):
            value = ring[name]
            for place in places:
                value = value[place]
            row.append(value)
    return rows_of(heads, rows)


def page_of(
    title: str, assumed: str, made: dict, pictures: dict[str, str], notes: list[str]
) -> str:
    """The whole page."""
    found, shown, lost = made["sizes"], made["shown"], made["lost"]
    about = [
        About(
            Path(one["path"]).name,
            one["frames"],
            0,
            one["nanoseconds"],
            one["cut_frames"],
            one["cut_to"] or 0,
            one["end"],
            one["drops_told"],
        )
        for one in found["about"]["captures"]
    ]
    captures = [
        [one.path, one.frames, one.last / 1e9, one.cut, "-" if one.drops is None else one.drops]
        for one in about
    ]
    flows = [
        [flow["flow"], flow["kept"], flow["lost"], flow["bytes_lost"]]
        for flow in lost["flows"][:FLOWS]
    ]
    members = [
        [one["member"], one["kept"], one["drops"], one["freezes"], one["most"], one["of"]]
        for one in made["members"]
    ]
    asked = [
        f"<code>{escape(found[name]['command'])}</code>"
        for name in ("tcpdump", "dumpcap")
        if name in found
    ]
    parts = [
        f"<h1>{escape(title)}</h1>",
        f'<p class="answer">{answer_words(found)}'
        + (f" {' or '.join(asked)} asks for it." if asked else "")
        + "</p>",
        f"<p>{escape(about_words(about, found['about']['filtered']).capitalize())}.</p>",
        (
            f"<p>Assumed of the reader: {escape(assumed)}{begin_words(found)}."
            f" {finder_words(found)} <code>ringtap replay</code>.</p>"
        ),
        *(f"<p>{escape(note)}.</p>" for note in notes),
        "<h2>The captures</h2>",
        rows_of(["capture", "frames", "seconds", "cut frames", "drops it tells of"], captures),
        "<h2>What smaller rings lose</h2>",
        f"<p>{losses_words(found['rings'])}</p>",
        sizes_table(found["rings"]),
        f'<div class="picture">{pictures["drops"]}</div>',
        f"<h2>A ring of {shown['block_nr']} blocks over time</h2>",
        (
            f"<p>At phase {shown['phase']}{' and under that key' if shown['key'] else ''}: the"
            " blocks that each reader has. With all of them the ring is frozen.</p>"
        ),
        f'<div class="picture">{pictures["fill"]}</div>',
        rows_of(["member", "kept", "dropped", "freezes", "most blocks", "of"], members),
        "<h2>What it loses, and when</h2>",
        f'<div class="picture">{pictures["lost"]}</div>',
        (
            rows_of(["flow", "kept", "lost", "bytes lost"], flows)
            if flows
            else "<p>No packet is lost.</p>"
        ),
    ]
    data = json.dumps(made).replace("</", "<\\/")
    return (
        '<!DOCTYPE html>\n<html lang="en"><head><meta'
        f' charset="utf-8"><title>{escape(title)}</title><meta name="viewport"'
        f' content="width=device-width,initial-scale=1"><style>{STYLE}</style></head>\n<body>\n'
        + "\n".join(parts)
        + '\n<script type="application/json"'
        f' id="numbers">{data}</script>\n<script>{SCRIPT}</script>\n</body></html>\n'
    )


def parser_of() -> ToolParser:
    parser = ToolParser(__doc__, "demo/lo.pcap -o report.html")
    parser.add_argument(
        "inputs",
        type=Path,
        nargs="+",
        metavar="SETUP|CAPTURE",
        help="a setup, or the capture of each CPU",
    )
    parser.add_argument(
        "-o",
        "--output",
        type=Path,
        default=Path("report.html"),
        metavar="FILE",
        help="the page (report.html)",
    )
    add_pace(parser, has_phase=False)
    add_json(parser)
    add_program(parser)
    return parser


def main(words: list[str]) -> int:
    args = parser_of().parse_args(words)
    program, setup = program_of(args.program), setup_of(args.inputs, False)
    check_outputs([args.output], args.inputs, setup)
    progress = Progress(4, "tools")
    options = reader_options(args, setup)
    if "--pause" in options and args.pause is None:
        args.pause = int(DEFAULT_PAUSE)
    notes = rollover_note(setup)
    for note in notes:
        print(note, file=sys.stderr)
    with Room(setup, program) as room:
        names = room.captures
        room.write_setup("setup.txt", {"out": "shown", "dump": None}, names)
        work = Work(room, options, progress)
        try:
            made = gathered(work, setup)
        except NoAnswer as fault:
            print(f"{Path(sys.argv[0]).name}: {fault}", file=sys.stderr)
            return NO_ANSWER
        for one, path in zip(made["sizes"]["about"]["captures"], setup.capture_paths()):
            one["path"] = str(path)
        ring = f"{made['shown']['block_nr']} blocks, phase {made['shown']['phase']}"
        said = {
            "shown.txt by shown.sched": ring,
            "shown.txt of ": "",
            ", by shown.sched": f"; {ring}",
        }
        said |= {name: path.name for name, path in zip(names, setup.capture_paths())}
        files = {"drops": "pictures/drops.svg", "fill": "fill.svg", "lost": "lost.svg"}
        pictures = {name: work.picture(file, said) for name, file in files.items()}
    shown = ", ".join(path.name for path in setup.capture_paths())
    title = (
        f"The ring for {shown}" if is_made(setup) else f"{setup.path.name}: the ring for {shown}"
    )
    assumed = reader_words(pace_of(args), "blocks")
    write_text(args.output, page_of(title, assumed, made, pictures, notes))
    if args.json:
        print_json(made | {"output": str(args.output)})
    else:
        print(f"saved: {args.output}")
    return 0
