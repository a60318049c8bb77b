"""Makes the man page docs/ringtap.1 and the completion for bash tools/ringtap.bash from the tables
of the documents.

With --check nothing is written, and the status is 1 where one of the two isn't what the documents
give. With --into a man page of the program and one of each tool, made from its help, go into a
folder, as install.sh has it.
"""
from __future__ import annotations

import argparse
import importlib
import json
import re
from pathlib import Path

from .documents import TOP, table_with
from .files import read_bytes
from .outputs import check_folder, write_text
from .words import DATE, VERSION, ToolParser, add_json

PAGE, COMPLETION = TOP / "docs" / "ringtap.1", TOP / "tools" / "ringtap.bash"
# The tools that are installed: their files, and the names that they have there.
TOOLS = {
    "beside": "ringtap-beside",
    "blocks": "ringtap-blocks",
    "busiest": "ringtap-busiest",
    "long": "ringtap-long",
    "lost": "ringtap-lost",
    "report": "ringtap-report",
    "ring_of": "ringtap-ring-of",
    "ring_size": "ringtap-size",
    "run": "ringtap-run",
    "schedule": "ringtap-schedule",
    "timeline": "ringtap-timeline",
}


def roff(text: str) -> str:
    """A cell as roff: what stands in code is bold, links are their words, and asterisks of limits
    fall away."""
    text = re.sub(r"\s*\(section \d+\)", "", text)
    text = re.sub(r"\[([^]]*)\]\([^)]*\)", r"\1", text)
    parts = re.split(r"(`[^`]*`|\*\*[^*]*\*\*)", text)
    made = []
    for part in parts:
        if part.startswith(("`", "**")):
            made.append(f"\\fB{escaped(part.strip('`*'))}\\fR")
        else:
            made.append(escaped(part.replace("*", "")))
    return "".join(made)


def escaped(text: str) -> str:
    return text.replace("\\", "\\e").replace("-", "\\-")


def line_of(text: str) -> str:
    """A line of roff that isn't taken for a request."""
    return "\\&" + text if text.startswith((".", "'")) else text


def tagged(head: str, body: str) -> list[str]:
    return [".TP", line_of(head), line_of(body or "as above")]


def section(title: str, *lines: str) -> list[str]:
    return [f".SH {title}", *lines]


def man_page() -> str:
    commands = table_with({"Command", "What it does"})
    setup = table_with({"Line", "Its value", "Without it"})
    schedule = table_with({"Line of a schedule", "What is done"})
    statuses = table_with({"Status", "When", "What to do"})
    lines = [
        '.\\" Made by tools/make_man.py from the tables of the documents: change those.',
        f'.TH RINGTAP 1 "{DATE}" "ringtap {VERSION}"',
        ".ad l",
        *section(
            "NAME", "ringtap \\- runs packet captures through the rings of Linux packet sockets"
        ),
        *section("SYNOPSIS"),
    ]
    for row in commands:
        lines += [line_of(roff(row["Command"])), ".br"]
    lines[-1:] = section(
        "DESCRIPTION",
        (
            "\\fBringtap\\fR runs captures through receive rings as Linux packet sockets have them"
            " (TPACKET_V3 with PACKET_FANOUT), in user"
        ),
        (
            "space. A setup names the captures, the group of members and their rings; a schedule"
            " says when a frame comes and when a reader"
        ),
        (
            "gives a block back. What each member's reader got is saved, and what the rings had to"
            " drop is counted. All lines go to"
        ),
        "standard output, and none to standard error.",
    )
    lines += section(
        "COMMANDS",
        *(
            line
            for row in commands
            for line in tagged(roff(row["Command"]), roff(row["What it does"]))
        ),
    )
    lines += section(
        "SETUP", "One line for each word, in any order; a line that begins with # is skipped."
    )
    for row in setup:
        lines += tagged(
            roff(shortened(row["Line"])),
            roff(row["Its value"]) + without_it(roff(row["Without it"])),
        )
    lines += section(
        "SCHEDULE",
        *(
            line
            for row in schedule
            for line in tagged(roff(row["Line of a schedule"]), roff(row["What is done"]))
        ),
    )
    lines += section("EXIT STATUS")
    for row in statuses:
        advice = "" if row["What to do"] == "-" else f". {capitalized(row['What to do'])}."
        lines += tagged(roff(f"**{row['Status']}**"), roff(row["When"] + advice))
    lines += section(
        "EXAMPLE",
        "A ring of two blocks, which is too small for its capture:",
        ".PP",
        ".nf",
        *(
            f"    {escaped(text)}"
            for text in read_bytes(TOP / "demo" / "small.txt").decode().splitlines()
        ),
        ".fi",
        ".PP",
        "\\fBringtap replay demo/small.txt demo/schedule.txt\\fR prints:",
        ".PP",
        ".nf",
        *(
            f"    {escaped(text)}"
            for text in read_bytes(TOP / "demo/expected/small/lines.txt").decode().splitlines()
        ),
        ".fi",
    )
    lines += section(
        "SEE ALSO",
        (
            f"{others_of('ringtap')}, \\fBpacket\\fR(7), \\fBtcpdump\\fR(1),"
            " \\fBpcap\\-savefile\\fR(5), \\fBss\\fR(8), and the documents"
        ),
        "in docs/, or where they are installed in share/doc/ringtap.",
        "A section that this page names is one of docs/reference.md.",
    )
    return "\n".join(lines) + "\n"


def shortened(text: str) -> str:
    """A key takes its first digits alone."""
    return re.sub(r"([0-9a-f]{8})[0-9a-f]{32,}", r"\1...", text)


def without_it(text: str) -> str:
    if not text:
        return ""
    return f" ({text})" if text.startswith("needed") else f" (without it: {text})"


def capitalized(text: str) -> str:
    return text[:1].upper() + text[1:]


def completion() -> str:
    """The script for bash: commands, then as many names of files as the command has."""
    words = [
        re.search(r"ringtap (\S+)((?: [A-Z]+)*)", row["Command"])
        for row in table_with({"Command", "What it does"})
    ]
    commands = [(found[1], len(found[2].split())) for found in words if found]
    cases = "\n".join(f"    {name}) files={count} ;;" for name, count in commands)
    return f"""# Completion of ringtap's words for bash: `source tools/ringtap.bash`.
# Made by tools/make_man.py from the documents.
_ringtap() {{
    local files=0
    COMPREPLY=()
    if [ "$COMP_CWORD" -eq 1 ]; then
        mapfile -t COMPREPLY < <(compgen -W '{" ".join(name for name, _ in commands)}' -- "$2")
        return
    fi
    case ${{COMP_WORDS[1]}} in
{cases}
    esac
    if [ "$COMP_CWORD" -le $((files + 1)) ]; then
        mapfile -t COMPREPLY < <(compgen -f -- "$2")
    fi
}}
complete -o filenames -F _ringtap ringtap
"""


def others_of(name: str) -> str:
    """The other pages, as a man page names them."""
    return ", ".join(
        f"\\fB{escaped(other)}\\fR(1)" for other in ["ringtap", *TOOLS.values()] if other != name
    )


def prose(text: str) -> list[str]:
    """Paragraphs of a help as roff; what stands between backticks is bold."""
    lines = []
    for paragraph in re.split(r"\n\s*\n", text.strip()):
        lines += [".PP", line_of(roff(" ".join(paragraph.split())))]
    return lines[1:]


def option_lines(parser: ToolParser, action: argparse.Action) -> list[str]:
    """An argument or an option with what it takes."""
    metavar = str(action.metavar or action.dest)
    if not action.option_strings:
        head = f"**{metavar}**"
    else:
        is_named = action.metavar or not action.choices
        taken = metavar if is_named else "|".join(map(str, action.choices))
        takes = "" if action.nargs == 0 else f" {taken}"
        head = ", ".join(f"**{option}**" for option in action.option_strings) + takes
    told = (
        (action.help or "")
        .replace("%(prog)s", parser.prog)
        .replace("show program's version number and exit", "show the version and exit")
    )
    return tagged(roff(head), roff(capitalized(told) + "."))


STATUSES = {
    "ringtap-beside": (
        "0 where both numbers are there, 77 where this machine can't run it, 1 where something went"
        " wrong, 2 where the words are wrong."
    ),
    "ringtap-run": (
        "That of \\fBringtap\\fR; 125 where the tool itself refuses, before anything is run."
    ),
    "ringtap-size": (
        "0 where a ring suffices, 3 where none does, 4 where the captures give no answer, 1 where"
        " an input is wrong, 2 where the words are."
    ),
}
PLAIN_STATUS = (
    "0 where all went well, 1 where an input is wrong or an output can't be written, 2 where the"
    " words are wrong."
)


def tool_page(module: str) -> str:
    """The man page of a tool, from its help."""
    name = TOOLS[module]
    parser = importlib.import_module(f".{module}", __package__).parser_of()
    parser.prog = name
    first, _, rest = (parser.description or "").strip().partition("\n\n")
    sentence = " ".join(first.split()).rstrip(".")
    example = (parser.epilog or "").split("\n  ", 1)[1] % {"prog": name}
    lines = [
        '.\\" Made by tools/make_man.py from the help of the tool: change that.',
        f'.TH {name.upper()} 1 "{DATE}" "ringtap {VERSION}"',
        ".ad l",
        *section("NAME", f"{escaped(name)} \\- {roff(sentence[:1].lower() + sentence[1:])}"),
        *section("SYNOPSIS", roff(f"**{name}**" + parser.one_line().removeprefix(name))),
        *section("DESCRIPTION", *prose(f"{sentence}.\n\n{rest}" if rest else f"{sentence}.")),
    ]
    # what is needed comes first
    actions = sorted(parser._actions, key=lambda action: bool(action.option_strings))
    lines += section(
        "OPTIONS", *(line for action in actions for line in option_lines(parser, action))
    )
    lines += section("EXIT STATUS", STATUSES.get(name, PLAIN_STATUS))
    lines += section("EXAMPLE", ".nf", f"    {escaped(example)}", ".fi")
    lines += section("SEE ALSO", f"{others_of(name)}, and \\fBtools.md\\fR among the documents.")
    return "\n".join(lines) + "\n"


def pages() -> dict[str, str]:
    """All man pages by the names of their files."""
    return {
        "ringtap.1": man_page(),
        **{f"{name}.1": tool_page(module) for module, name in TOOLS.items()},
    }


def parser_of() -> ToolParser:
    parser = ToolParser(__doc__, "--check")
    parser.add_argument(
        "--check", action="store_true", help="write nothing, and say what is out of date"
    )
    parser.add_argument("--into", type=Path, metavar="FOLDER", help="write all man pages there")
    parser.add_argument(
        "--names",
        action="store_true",
        help="print each tool that is installed, and the name that it has there",
    )
    add_json(parser)
    return parser


def written_into(folder: Path) -> list[str]:
    check_folder(folder)
    folder.mkdir(parents=True, exist_ok=True)
    made = pages()
    for name, text in made.items():
        write_text(folder / name, text)
    return [str(folder / name) for name in made]


def main(words: list[str]) -> int:
    args = parser_of().parse_args(words)
    if args.names:
        print(
            json.dumps(TOOLS)
            if args.json
            else "\n".join(f"{module}.py {name}" for module, name in TOOLS.items())
        )
        return 0
    made, stale = [], []
    if args.into:
        made = written_into(args.into)
    else:
        for path, text in [(PAGE, man_page()), (COMPLETION, completion())]:
            if args.check and not (path.is_file() and path.read_text() == text):
                stale.append(str(path.relative_to(TOP)))
            elif not args.check:
                write_text(path, text)
                made.append(str(path))
    if args.json:
        print(json.dumps({"made": made, "stale": stale}))
    else:
        for name in stale:
            print(
                f"{name}: isn't what the documents give: `python3 tools/make_man.py` makes it anew"
            )
    return 1 if stale else 0
