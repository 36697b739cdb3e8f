"""The block and the F3 payload that the program `send` is run on, its arguments, and the line octets that it must write."""

import random
from typing import Dict, List

from coding import PAYLOAD_OCTETS
from sender import Sender

SEED, F3_SEED = 53, 48
BLOCK_OCTETS = 70_001
PHASE, LEAD, VPI, VCI = 0x3ECFEDE8, 45, 17, 1042
TRAIL = 8
F3_FILE = "f3-payload"


def user_cells(header: int, block: bytes) -> List[bytes]:
    """The cells of a block under one header, the last filled with zeros."""
    parts = [block[at:at + PAYLOAD_OCTETS] for at in range(0, len(block), PAYLOAD_OCTETS)]
    return [header.to_bytes(4, "big") + part.ljust(PAYLOAD_OCTETS, b"\0") for part in parts]


def line_octets(block: bytes, header: int, phase: int, lead: int, f3_payload: bytes) -> bytes:
    """The lead without users, cells until each one of the block is out, and the trail without users."""
    sender, line = Sender(), b""
    sender.start(phase)
    sender.set_f3(f3_payload)
    for _ in range(lead):
        line += sender.send([])[0]
    waiting = user_cells(header, block)
    while waiting:
        line += sender.send(waiting)[0]
    for _ in range(TRAIL):
        line += sender.send([])[0]
    return line


def octets(seed: int, count: int) -> bytes:
    source = random.Random(seed)
    return bytes(source.getrandbits(8) for _ in range(count))


def arguments() -> List[str]:
    return ["--lead", str(LEAD), "--phase", f"0x{PHASE:X}", "--f3", F3_FILE, "--vci", str(VCI), "--vpi", f"0x{VPI:02x}"]


def files() -> Dict[str, bytes]:
    block, f3_payload = octets(SEED, BLOCK_OCTETS), octets(F3_SEED, PAYLOAD_OCTETS)
    return {
        "stdin": block,
        f"data/{F3_FILE}": f3_payload,
        "args": "".join(word + "\n" for word in arguments()).encode(),
        "stdout": line_octets(block, VPI << 20 | VCI << 4, PHASE, LEAD, f3_payload),
    }
