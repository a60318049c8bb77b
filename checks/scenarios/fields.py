"""Fields of the structs of <linux/if_packet.h>, by their names."""
from __future__ import annotations

from collections.abc import Iterator

from scenarios.spelling import meant

# Place, size, and `>` where the bytes are in network order.
ADDRESS = {
    "sll_family": (0, 2, "<"), "sll_protocol": (2, 2, ">"), "sll_ifindex": (4, 4, "<"),
    "sll_hatype": (8, 2, "<"), "sll_pkttype": (10, 1, "<"), "sll_halen": (11, 1, "<"),
    "sll_addr": (12, 8, ">"),
}


def with_address(front: int, fields: dict[str, tuple[int, int]]) -> dict[str, tuple[int, int, str]]:
    """The fields of a packet's header, and those of the address that follows it."""
    found = {name: (place, size, "<") for name, (place, size) in fields.items()}
    return (
        found
        | {name: (front + place, size, order) for name, (place, size, order) in ADDRESS.items()}
    )


FIELDS: dict[str, dict[str, tuple[int, int, str]]] = {
    "block": {
        name: (place, 8 if name == "seq_num" else 4, "<") for name,
        place in {
            "version": 0, "offset_to_priv": 4, "block_status": 8, "num_pkts": 12,
            "offset_to_first_pkt": 16, "blk_len": 20, "seq_num": 24, "first_sec": 32,
            "first_nsec": 36, "last_sec": 40, "last_nsec": 44,
        }.items()
    },
    "packet": with_address(
        48,
        {
            "tp_next_offset": (0, 4), "tp_sec": (4, 4), "tp_nsec": (8, 4), "tp_snaplen": (12, 4),
            "tp_len": (16, 4), "tp_status": (20, 4), "tp_mac": (24, 2), "tp_net": (26, 2),
            "tp_rxhash": (28, 4), "tp_vlan_tci": (32, 4), "tp_vlan_tpid": (36, 2),
        }
    ),
    "slot": with_address(
        32,
        {
            "tp_status": (0, 4), "tp_len": (4, 4), "tp_snaplen": (8, 4), "tp_mac": (12, 2),
            "tp_net": (14, 2), "tp_sec": (16, 4), "tp_nsec": (20, 4), "tp_vlan_tci": (24, 2),
            "tp_vlan_tpid": (26, 2),
        }
    ),
}


def wrong_names(words: list[str]) -> Iterator[str]:
    """What is wrong with the names of the words `FILE AT STRUCT FIELD VALUE ..`."""
    struct, *pairs = words[2:] or [""]
    if struct not in FIELDS:
        yield f'"{struct}" is no struct{meant(struct, FIELDS)}'
        return
    for name in pairs[::2]:
        if name not in FIELDS[struct]:
            yield f'"{name}" is no field of {struct}{meant(name, FIELDS[struct])}'


def field_bytes(struct: str, name: str, number: str) -> tuple[int, bytes]:
    """Where a field stands in its struct, and the bytes of its value, which is decimal."""
    place, size, order = FIELDS[struct][name]
    try:
        return place, int(number).to_bytes(size, "big" if order == ">" else "little")
    except OverflowError:
        told = f"{name} has {size} byte{'s'[:size > 1]}, too few for {number}"
        raise ValueError(told) from None
