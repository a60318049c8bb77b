"""report.py: one page whose numbers are those of the tools' JSON, without a browser."""
from __future__ import annotations

import json
import re
from html.parser import HTMLParser

from second.hash_values import KEY
from tools.here import BLOCK, Here, datagram_between, frame


class Page(HTMLParser):
    """The cells of each table, and what the page names elsewhere."""

    def __init__(self) -> None:
        super().__init__()
        self.tables: list[list[list[str]]] = []
        self.outside: list[str] = []
        self.is_cell = False

    def handle_starttag(self, tag: str, attributes: list[tuple[str, str | None]]) -> None:
        found = dict(attributes)
        self.outside += [str(found[name]) for name in ("src", "href") if name in found]
        if tag == "table":
            self.tables.append([])
        elif tag == "tr":
            self.tables[-1].append([])
        elif tag in ("td", "th"):
            self.is_cell = True
            self.tables[-1][-1].append("")

    def handle_endtag(self, tag: str) -> None:
        if tag in ("td", "th"):
            self.is_cell = False

    def handle_data(self, data: str) -> None:
        if self.is_cell:
            self.tables[-1][-1][-1] += data


def test_page(here: Here) -> None:
    """112 frames, one each ms, over two blocks of 28 that nobody reads; the timer runs out each
    56 ms."""
    here.capture("a<b.pcap", [(1000 * number + 500, frame(number)) for number in range(112)])
    here.text("steady.txt", BLOCK + "tov 56\ncpu a<b.pcap\n")
    answer = here.with_program("report.py", "steady.txt", "-o", "page.html")
    assert (answer.printed, answer.said, answer.status) == ("saved: page.html\n", "", 0)
    text = (here.path / "page.html").read_text()
    page = Page()
    page.feed(text)
    assert page.outside == []  # it needs nothing from elsewhere
    assert "<b.pcap" not in re.sub(r"<script.*?</script>", "", text, flags=re.S)
    captures, sizes, members, flows = page.tables
    found = json.loads(here.with_program("ring_size.py", "steady.txt", "--json").printed)
    wanted = [
        [ring[name] for name in ("block_nr", "memory", "fewest", "drops", "phase", "freezes")]
        for ring in found["rings"]
    ]
    assert [[int(cell.replace(",", "")) for cell in row] for row in sizes[1:]] == wanted
    assert captures[1][:3] == ["a<b.pcap", "112", "0.111"]
    # At the worst phase two blocks keep 29 of them, and all frames are of one flow.
    assert members[1][:3] == ["0", "29", "83"]
    assert flows[1] == ["type 0x88b5", "29", "83", "4,980"]
    kept = re.search(r'id="numbers">(.*?)</script>', text, re.S)
    assert kept is not None
    numbers = json.loads(kept[1].replace("<\\/", "</"))
    assert numbers["sizes"]["rings"] == found["rings"]
    assert "<b>5 blocks of 4,096 bytes</b>" in text


def test_keys(here: Here) -> None:
    """Four flows of 28 packets, two members of two blocks. Under the worst key one member has all
    four and drops two of them, and so it does in the ring that is shown."""
    flows = [datagram_between((1, 1000 + number), (2, 53), 18) for number in range(4)]
    here.capture("flows.pcap", [(at, flows[at // 28]) for at in range(112)])
    here.text("flows.txt", BLOCK + f"cpu flows.pcap\nmembers 2\nmode hash\nkey {KEY}\n")
    answer = here.with_program("report.py", "flows.txt", "-o", "page.html")
    assert (answer.said, answer.status) == ("", 0)
    page = Page()
    page.feed((here.path / "page.html").read_text())
    sizes, members, lost = page.tables[1:]
    assert sizes[0][-2:] == ["fewest, any key", "most, any key"]
    assert (sizes[1][0], sizes[1][3], sizes[1][-1]) == ("2", "56", "56")
    assert sorted(row[2] for row in members[1:]) == ["0", "56"]
    assert [row[2] for row in lost[1:]] == ["28", "28"]


def test_no_answer(here: Here) -> None:
    """Of no frame no page is made, and the capture has the name that the user gave it."""
    here.capture("none.pcap", [])
    answer = here.with_program("report.py", "none.pcap", "-o", "page.html")
    said = "report.py: ring_size.py: none.pcap: no frame: no answer\n"
    assert answer == ("", said, 4) and not (here.path / "page.html").exists()
