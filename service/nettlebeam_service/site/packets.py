"""How packets are handed to the site."""
from __future__ import annotations

from typing import List

LONGEST_PACKET = 1_073_741_824  # bytes of the line that takes one, as the program has it


class BadPacket(Exception):
    """The bytes can't be handed to the site as a packet."""


def parts_of_line(data: bytes, peer: str) -> List[bytes | memoryview]:
    """The line of the site that takes a packet, in parts. Where it comes from a peer, the site takes that peer's own alone."""
    front = f"take from {peer} ".encode("ascii") if peer else b"take "
    end = len(data) - data.endswith(b"\n")
    if end > LONGEST_PACKET - len(front):
        raise BadPacket("the packet is longer than a line may be")
    if data.find(b"\n", 0, end) >= 0:
        raise BadPacket("the packet is no one line")
    return [front, memoryview(data)[:end]]
