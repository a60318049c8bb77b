"""Whether the documents say what the program does: each word, status and line that the sources
can print stands in docs/reference.md; each link of a document leads somewhere; each name of code
that README, guarantees or a crate's README cites is in the sources; and each command of a
document prints what stands below it; and the example of each library stands in a caller, which
the gate proves and the tests run."""
from __future__ import annotations

import os
import pathlib
import re
import subprocess
from collections.abc import Callable, Iterator

import running
from places import TOP

REFERENCE = TOP / "docs/reference.md"
COLUMNS = 110  # of a line of README.md
# The crates of definitions and theorems alone that no code of another crate uses.
WITHOUT_CALLS = {"replay_laws", "ring_events"}
# The example of a crate's README: the source that it is from, and its lines.
EXAMPLE = re.compile(
    r"^## Example\n\n.*?from\s+\[\w+\]\(([^)]+)\):\n\n```rust\n(.*?)^```", re.M | re.S | re.I
)

Found = tuple[int, list[str]]  # how many things were looked at, and what is wrong with some
Look = Callable[[], Found]
Step = tuple[str, list[str]]  # a command, and the lines that are shown below it

# Where the program's words come from: a file, and what finds them there, each group a word or a
# line.
WORDS: list[tuple[str, str, set[str]]] = [
    ("setup_text/src/setup_error.rt", r'=> "(\w+)"', {"memory"}),
    ("setup_text/src/text_error.rt", r'=> "(\w+)"', {"memory"}),
    ("setup_text/src/setup_words.rt", r'=> "(\w+)"', set()),
    ("setup_text/src/values.rt", r'== b"(\w+)"', set()),
    ("setup_text/src/drafts.rt", r'[!=]= b"(\w+)"', set()),
    ("setup_text/src/schedules.rt", r'== b"(\w+)"', set()),
    ("bpf_filter/src/error.rt", r'=> "(\w+)"', {"memory"}),
    ("tp_layout/src/error.rt", r'=> "(\w+)"', set()),
    ("fanout_group/src/plan_error.rt", r'=> "(\w+)"', set()),
    ("tap_engine/src/commands.rt", r'[!=]= b"(\w+)"', set()),
]
# Lines and phrases, with a place `{..}` for each number or word in them.
LINES = [
    ("tap_printing/src/cpu_lines.rt", r'"( ?[a-z][^"]*)"'),
    ("tap_printing/src/member_lines.rt", r'"( ?[a-z][^"]*)"'),
    ("tap_printing/src/sent_lines.rt", r'"( ?[a-z][^"]*)"'),
    ("tap_printing/src/summaries.rt", r'"( ?[a-z][^"]*)"'),
    ("tap_printing/src/refusals.rt", r'"( ?[a-z][^"]*)"'),
    ("tap_engine/src/findings.rt", r'b?"([a-z][^"]*)"'),
    ("tap_running/src/printing.rt", r'b"([a-z][^"]*)"'),
    ("tx_ring/src/error.rt", r'"( ?[a-z][^"]*)"'),
]
STATUSES, STATUS = "tap_engine/src/outcomes.rt", r"Status::\w+(?:\([^)]*\)| \{[^}]*\})? => (\d+)"
ENDINGS = ["tap_saving/src/members.rt", "tap_saving/src/names.rt"]


def source(name: str) -> str:
    """The text of a file of a crate, without its comments."""
    text = (TOP / "crates" / name).read_text(encoding="utf-8")
    return re.sub(r"//.*", "", text)


def shown(text: str) -> str:
    """What a document shows as code: in backticks, in indented lines and in fenced blocks."""
    blocks = re.findall(r"^```.*?\n(.*?)^```", text, re.M | re.S) + re.findall(
        r"^    .*$", text, re.M
    )
    return "\n".join(re.findall(r"`([^`\n]+)`", text) + blocks).replace("\\|", "|")


def stands(phrase: str, document: str) -> bool:
    """Whether a document shows a line of the program, with something in each place."""
    parts = [re.escape(part) for part in re.split(r"\{[^}]*\}", phrase.removesuffix("\\n"))]
    return re.search(r".+?".join(parts), document) is not None


def printable(text: str) -> Iterator[tuple[str, str, set[str], str, Callable[[str], object]]]:
    """What the sources can print: where it stands, what finds it there, what of that is never
    printed, what it is, and whether the reference, whose text this is, has it."""
    document = shown(text)
    for name, pattern, never in WORDS:
        yield name, pattern, never, "the word", lambda word: re.search(rf"\b{word}\b", document)
    for name, pattern in LINES:
        yield name, pattern, set(), "the line", lambda phrase: stands(phrase, document)
    yield STATUSES, STATUS, set(), "the status", lambda number: re.search(
        rf"^\| {number} \| ", text, re.M
    )
    for name in ENDINGS:
        yield name, r'"(\.[a-z.]+)"', set(), "the file", lambda ending: ending in document


def words() -> Found:
    """The words, lines, statuses and files of the sources that the reference lacks, and the
    sources in which none is found."""
    found, wrong = 0, list[str]()
    for name, pattern, never, what, has in printable(REFERENCE.read_text(encoding="utf-8")):
        texts = sorted(set(re.findall(pattern, source(name))) - never)
        found += len(texts)
        wrong += [
            f"docs/reference.md lacks {what} '{text}' of {name}"
            for text in texts if not has(text)
        ]
        if not texts:
            wrong.append(f"{name} has nothing that {pattern} finds, so nothing of it is looked for")
    return found, wrong


def documents() -> list[pathlib.Path]:
    """All documents of the repository."""
    return [
        TOP / "README.md",
        TOP / "CONTRIBUTING.md",
        TOP / "CHANGELOG.md",
        *sorted((TOP / "docs").glob("*.md")),
        *sorted((TOP / "crates").glob("*/README.md")),
    ]


def anchors(path: pathlib.Path) -> set[str]:
    """The places of a document that a link can name."""
    headings = re.findall(r"^#+ (.*)$", path.read_text(encoding="utf-8"), re.M)
    return {re.sub(r"[^\w\- ]", "", heading.lower()).replace(" ", "-") for heading in headings}


def links() -> Found:
    """The links that lead nowhere, and the lines of README.md that are too long."""
    wrong = []
    found = 0
    for path in documents():
        here = path.relative_to(TOP)
        text = path.read_text(encoding="utf-8")
        for link in re.findall(r"\]\(([^)\s]+)\)", text):
            found += 1
            name, _, anchor = link.partition("#")
            if re.match(r"\w+:", name):
                continue
            target = (path.parent / name).resolve() if name else path
            if not target.exists():
                wrong.append(f"{here}: {link} leads nowhere")
            elif anchor and anchor not in anchors(target):
                wrong.append(f"{here}: {link} names no heading")
        for name in re.findall(r"\b[a-z]+_(?:tests|rows)\b", text):
            found += 1
            if not (TOP / "crates" / name).exists():
                wrong.append(f"{here}: there is no crate {name}")
        for name in re.findall(r"\b(?:docs|checks|bench|demo|tools)/[\w./]+\.\w+", text):
            found += 1
            if not (TOP / name).exists():
                wrong.append(f"{here}: {name} isn't there")
    for number, line in enumerate((TOP / "README.md").read_text(encoding="utf-8").split("\n"), 1):
        if len(line) > COLUMNS:
            wrong.append(f"README.md: line {number} has {len(line)} columns")
    return found, wrong


def known_names() -> set[str]:
    """Each name that stands in the sources, the scripts, the list of crates, or as a kernel's in
    the reference."""
    names: set[str] = set()
    for pattern in (
        "crates/*/src/**/*.rt", "crates/*/specs/**/*.antt", "crates/*/must-fail/*", "checks/**/*",
        "bench/*", "demo/*", "tools/**/*", "crates.txt", "docs/reference.md"
    ):
        for path in TOP.glob(pattern):
            names.add(path.stem)
            if path.suffix in {".rt", ".antt", ".py", ".sh", ".txt", ".bash", ".c", ".md"}:
                names |= set(re.findall(r"\w+", path.read_text(encoding="utf-8")))
    return names


def names() -> Found:
    """The names in backticks of which no source knows anything."""
    known = known_names()
    wrong = []
    found = 0
    for path in [
        TOP / "README.md", TOP / "docs/guarantees.md", *sorted((TOP / "crates").glob("*/README.md"))
    ]:
        text = path.read_text(encoding="utf-8")
        for block in re.findall(r"^```rust\n(.*?)^```", text, re.M | re.S):
            for name in re.findall(
                r"\b(\w+)(?=\(|::)|\b([A-Z]\w*[a-z]\w*)", re.sub(r"//.*", "", block)
            ):
                found += 1
                if (name[0] or name[1]) not in known:
                    wrong.append(
                        f"{path.relative_to(TOP)}: {name[0] or name[1]}, in an example, is no name "
                        "of the sources"
                    )
        text = re.sub(r"^```.*?^```", "", text, flags=re.M | re.S)
        for cited in re.findall(r"`([A-Za-z_][\w:.]*)`", text):
            if re.search(r"\.(md|rt|antt|py|sh|txt|edit|pcap|blk|sched|ddd)$", cited):
                continue
            for name in re.findall(r"\w+", cited):
                found += 1
                if name not in known:
                    wrong.append(f"{path.relative_to(TOP)}: `{cited}` is no name of the sources")
    return found, wrong


# ---- the examples of the crates


def libraries() -> list[str]:
    """The crates without tests whose code another crate uses."""
    found = []
    for path in sorted(TOP.glob("crates/*/src/lib.rt")):
        name = path.parent.parent.name
        if not name.endswith("_tests") and name not in WITHOUT_CALLS:
            found.append(name)
    return found


def code_of(text: str) -> list[str]:
    """The lines of code, without their indentation and comments."""
    bare = (re.sub(r"\s*//.*", "", line).strip() for line in text.splitlines())
    return [line for line in bare if line]


def pieces_of(text: str) -> list[list[str]]:
    """The lines of an example, in pieces where `// ..` stands for lines that it leaves out."""
    return [code_of(piece) for piece in re.split(r"(?m)^\s*// \.\.$", text)]


def holds(lines: list[str], pieces: list[list[str]]) -> bool:
    """Whether a source has the pieces, each as lines that follow one another."""
    return all(
        piece and any(lines[at : at + len(piece)] == piece for at in range(len(lines)))
        for piece in pieces
    )


def examples() -> Found:
    """The libraries without an example, and those whose example isn't in the source that it
    names, which is another crate's."""
    wrong = []
    for name in libraries():
        readme = TOP / "crates" / name / "README.md"
        text = readme.read_text(encoding="utf-8") if readme.is_file() else ""
        found = EXAMPLE.search(text)
        source = (readme.parent / found[1]).resolve() if found else None
        if not found or not source or not source.is_file():
            wrong.append(f"crates/{name}/README.md has no example from a source")
        elif source.is_relative_to(readme.parent):
            wrong.append(f"crates/{name}/README.md: its example is from the crate itself")
        elif not holds(code_of(source.read_text(encoding="utf-8")), pieces_of(found[2])):
            wrong.append(f"crates/{name}/README.md: its example isn't in {source.relative_to(TOP)}")
    return len(libraries()), wrong


# ---- the commands of a document


def steps(text: str) -> list[Step]:
    """The commands of a document, each with the lines that are shown below it."""
    return [
        step
        for block in re.findall(r"^```console\n(.*?)^```", text, re.M | re.S)
        for step in steps_of(block)
    ]


def steps_of(block: str) -> list[Step]:
    """The commands of one block. A here-document goes on up to its last word."""
    found: list[tuple[list[str], list[str]]] = []
    end = None
    for line in block.rstrip("\n").split("\n"):
        if end is not None:
            found[-1][0].append(line)
            end = None if line == end else end
        elif line.startswith("$ "):
            found.append(([line[2:]], []))
            here = re.search(r"<<'(\w+)'", line)
            end = here[1] if here else None
        elif line.startswith("> ") and found and not found[-1][1]:
            found[-1][0].append(line[2:])
        elif found:
            found[-1][1].append(line)
    return [("\n".join(command), lines) for command, lines in found]


def agrees(printed: str, expected: list[str]) -> bool:
    """Whether lines are those that are expected; `...` stands for any lines."""
    pattern = "".join(
        r"(?:.*\n)*?" if line == "..." else re.escape(line) + "\n"
        for line in expected
    )
    return re.fullmatch(pattern, printed) is not None


def otherwise(expected: list[str], printed: str, complained: str = "") -> str | None:
    """What is printed in place of the lines that are expected, if something else is."""
    if agrees(printed, expected):
        return None
    return f"it printed\n{printed}{complained}in place of\n" + "\n".join(expected)


def differs(command: str, expected: list[str], room: str, program: str) -> str | None:
    """What is wrong with what a command prints on standard output, if something is."""
    path = f"{pathlib.Path(program).resolve().parent}:{os.environ['PATH']}"
    environment = {**os.environ, "PATH": path, "LC_ALL": "C.UTF-8", "TZ": "UTC"}
    done, why = running.run(
        ["bash", "-c", command], cwd=room, env=environment, stdin=subprocess.DEVNULL
    )
    if done is None:
        return why
    texts = (text.decode("utf-8", "replace") for text in (done.stdout, done.stderr))
    return otherwise(expected, *texts)
