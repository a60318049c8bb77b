"""Reads the rings that Suricata asks for from the `af-packet` section of its suricata.yaml.

The number of blocks is that of Suricata's AFPComputeRingParamsV3 (src/source-af-packet.c), and
defaults are those of its documentation and of src/runmode-af-packet.c, of versions 6 and 7. It
wasn't run here: `ss` shows the ring that a running one has.
"""
from __future__ import annotations

import re
from dataclasses import dataclass
from pathlib import Path

from .files import Fault, read_bytes

PAGE, ALIGNMENT = 4096, 16  # of TPACKET_ALIGN
HEADER = 48  # bytes of struct tpacket3_hdr
ADDRESS, ETHERNET = 20, 14  # bytes of struct sockaddr_ll, and of an Ethernet header
DEFAULT_BLOCK = PAGE << 3
DEFAULT_TIMEOUT, DEFAULT_PACKET, DEFAULT_PENDING = 10, 1514, 1024
CLUSTERS = {
    "cluster_flow": "hash",
    "cluster_cpu": "cpu",
    "cluster_qm": "qm",
    "cluster_rollover": "rollover",
}
YES = ("yes", "true", "on", "1")


@dataclass
class Interface:
    """An entry of `af-packet`: its words as the file has them, and the line of each."""

    words: dict[str, str]
    lines: dict[str, int]


@dataclass
class Config:
    path: Path
    interfaces: list[Interface]
    top: dict[str, str]  # words that stand at the left margin


def read_config(path: Path) -> Config:
    """Reads the lines of a suricata.yaml that matter here; what else YAML has isn't known."""
    config = Config(path, [], {})
    section = ""
    for number, text in enumerate(read_bytes(path).decode("utf-8", "replace").splitlines(), 1):
        line = re.sub(r"(^|\s)#.*", "", text).rstrip()
        found = re.fullmatch(r"(\s*)(- +)?([\w-]+):(?:\s+(.*))?", line)
        if not found:
            continue
        margin, dash, word, value = found[1], found[2], found[3], (found[4] or "").strip("\"' ")
        if not margin and not dash:
            section = word
            config.top[word] = value
        elif section == "af-packet":
            if dash:
                config.interfaces.append(Interface({}, {}))
            if config.interfaces:
                config.interfaces[-1].words[word] = value
                config.interfaces[-1].lines[word] = number
    if not config.interfaces:
        raise Fault(f"{path}: has no section `af-packet` with an interface")
    return config


def align(size: int) -> int:
    return -(-size // ALIGNMENT) * ALIGNMENT


class SuricataRing:
    """The ring of an interface, as Suricata works it out."""

    def __init__(self, config: Config, name: str | None, threads: int) -> None:
        self.config, self.interface = config, chosen(config, name)
        defaults = next(
            (one for one in config.interfaces if one.words.get("interface") == "default"), None
        )
        self.defaults = defaults.words if defaults else {}
        self.name = self.interface.words.get("interface", "?")
        asked = self.word("threads", "auto")
        self.threads = threads if asked == "auto" else self.number("threads", threads)
        if self.word("tpacket-v3", "yes") not in YES:
            raise Fault(
                f"{self.where('tpacket-v3')}: {self.name} asks for a ring of TPACKET_V2: for"
                " `replay2` take block_nr from ss"
            )
        self.block_size, self.timeout = self.number("block-size", DEFAULT_BLOCK), self.number(
            "block-timeout", DEFAULT_TIMEOUT
        )
        self.packets = self.ring_size()
        snap = self.top_number("default-packet-size", DEFAULT_PACKET)
        # Its words: TPACKET_ALIGN(snaplen + TPACKET_ALIGN(TPACKET_ALIGN(tp_hdrlen) + sizeof(struct
        # sockaddr_ll) + ETH_HLEN) - ETH_HLEN)
        self.frame_size = align(snap + align(align(HEADER) + ADDRESS + ETHERNET) - ETHERNET)
        if self.block_size < self.frame_size:
            raise Fault(
                f"{self.where('block-size')}: a block of {self.block_size} bytes has no room for a"
                f" frame of {self.frame_size}"
            )
        self.block_nr = self.packets // (self.block_size // self.frame_size) + 1

    def word(self, word: str, default: str) -> str:
        """A word of the interface, or of the entry `default`."""
        return self.interface.words.get(word, self.defaults.get(word, default)) or default

    def number(self, word: str, default: int) -> int:
        text = self.word(word, str(default))
        if not (text.isascii() and text.isdigit()):
            raise Fault(
                f"{self.where(word)}: `{word}` is {text}, and a number here has decimal digits"
                " alone"
            )
        return int(text)

    def top_number(self, word: str, default: int) -> int:
        """A number at the left margin."""
        text = self.config.top.get(word) or str(default)
        if not (text.isascii() and text.isdigit()):
            raise Fault(
                f"{self.config.path}: `{word}` is {text}, and a number here has decimal digits"
                " alone"
            )
        return int(text)

    def where(self, word: str) -> str:
        return (
            f"{self.config.path}, line {self.interface.lines.get(word, 0)}"
            if word in self.interface.lines
            else str(self.config.path)
        )

    def ring_size(self) -> int:
        """Packets of the ring of a thread; where nothing is said twice `max-pending-packets` for
        all threads together."""
        pending = self.top_number("max-pending-packets", DEFAULT_PENDING)
        if not self.word("ring-size", ""):
            return pending * 2 // self.threads
        asked = self.number("ring-size", 0)
        return asked if asked * self.threads >= pending else pending // self.threads + 1

    def mode(self) -> str:
        cluster = self.word("cluster-type", "cluster_flow")
        if cluster not in CLUSTERS:
            raise Fault(
                f"{self.where('cluster-type')}: `cluster-type: {cluster}` is a mode that ringtap"
                " has not"
            )
        return CLUSTERS[cluster]

    def flags(self) -> list[str]:
        mode = self.mode()
        return [
            flag
            for flag in ("defrag", "rollover")
            if self.word(flag, "no") in YES and (flag, mode) != ("rollover", "rollover")
        ]


def chosen(config: Config, name: str | None) -> Interface:
    for interface in config.interfaces:
        if name is None or interface.words.get("interface") == name:
            return interface
    names = ", ".join(interface.words.get("interface", "?") for interface in config.interfaces)
    raise Fault(f"{config.path}: has no interface {name}; there are {names}")
