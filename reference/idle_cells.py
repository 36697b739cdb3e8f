"""Idle cells, and 17 of them as they stand on a line."""

from pathlib import Path
from typing import List

IDLE_CELL = bytes.fromhex("00000001") + bytes([0x6A]) * 48


def line_cells() -> List[bytes]:
    lines = (Path(__file__).parent / "idle_cells.txt").read_text().splitlines()
    return [bytes.fromhex(line) for line in lines if not line.startswith("#")]
