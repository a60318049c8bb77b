"""What an accepted setup says, read for the second program."""
from __future__ import annotations

DESCRIPTOR = 48  # the bytes of a block that are for its descriptor
SLOT_HEADER = 48  # the bytes of a transmit slot before its data


class Setup:
    """The lines of a setup that is accepted; each word has the value that it has without its
    line."""

    def __init__(self, text: str) -> None:
        fields: dict[str, str] = {}
        self.cpus: list[tuple[str, int]] = []  # the capture and the queue of each CPU
        self.flags: set[str] = set()
        self.made: tuple[int, int] | None = None  # the seed and the count of made frames
        for line in text.splitlines():
            word, *values = line.split() or ["#"]
            if word == "cpu":
                self.cpus.append((values[0], int(values[1]) if len(values) > 1 else len(self.cpus)))
            elif word == "flag":
                self.flags.add(values[0])
            elif word == "make":
                self.made = int(values[0]), int(values[1])
            elif not word.startswith("#"):
                fields[word] = values[0]
        self.take_ring(fields)
        self.members, self.mode = int(fields.get("members", 1)), fields.get("mode", "cpu")
        self.key = bytes.fromhex(fields["key"]) if "key" in fields else None
        self.mac = bytes.fromhex(fields["mac"]) if "mac" in fields else None
        self.filter, self.prefix, self.dump = (
            fields.get("filter"), fields.get("out", "out"), "dump" in fields
        )
        # says who decodes, and nothing of what comes out
        self.workers = int(fields.get("workers", 0))

    def take_ring(self, fields: dict[str, str]) -> None:
        """The shape of the rings, and the room of a block and of a transmit slot for packets."""
        self.block_size, self.block_nr = int(fields["block_size"]), int(fields["block_nr"])
        self.frame_size, self.frame_nr = int(fields["frame_size"]), int(fields["frame_nr"])
        self.slot_room, self.skip_bad = self.frame_size - SLOT_HEADER, "skip_bad" in fields
        self.priv, self.features = int(fields.get("priv", 0)), int(fields.get("features", 0))
        self.tov = int(fields.get("tov", 0)) or 8
        self.room = self.block_size - DESCRIPTOR - (self.priv + 7) // 8 * 8

    def rolls_over(self) -> bool:
        return self.mode == "rollover" or "rollover" in self.flags
