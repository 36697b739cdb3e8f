"""A line with cells on it, bit by bit, with whatever damage is wanted."""

from typing import Iterable, List

from bits import Bits, bits_of, bits_of_octets, octets_of, xor
from check_octet import agrees, remainder
from coding import code_header, payload_mask
from coding_vectors import Draw
from generator import next_phase
from idle_cells import IDLE_CELL

HEADER_BITS = 40
CELL_BITS = 424

# Wrong bits of a header by which it still agrees: the two samples.
HEC8, HEC7 = 32, 33


class Line:
    """Cells at a phase that moves on with each. Phase 0 scrambles nothing."""

    def __init__(self, draw: Draw, phase: int) -> None:
        self.draw = draw
        self.phase = phase
        self.bits: Bits = []

    def cell(self, cell: bytes = IDLE_CELL, wrong: Iterable[int] = ()) -> "Line":
        """A cell with these of its 424 bits wrong."""
        header, payload = bits_of_octets(cell[:4]), bits_of_octets(cell[4:])
        sent = code_header(header, self.phase) + xor(payload, payload_mask(self.phase))
        for bit in wrong:
            sent[bit] ^= 1
        self.bits += sent
        self.phase = next_phase(self.phase)
        return self

    def idle(self, count: int) -> "Line":
        for _ in range(count):
            self.cell()
        return self

    def user(self, wrong: Iterable[int] = (), header: int = 0x01104120) -> "Line":
        """A user cell with a payload of its own."""
        return self.cell(header.to_bytes(4, "big") + self.draw.octets(48), wrong)

    def users(self, count: int) -> "Line":
        for _ in range(count):
            self.user()
        return self

    def f3(self, wrong: Iterable[int] = ()) -> "Line":
        return self.cell(bytes.fromhex("00000009") + self.draw.octets(48), wrong)

    def disagreeing(self, count: int) -> "Line":
        """User cells whose headers disagree: two wrong bits in the check octet, and neither is a sample."""
        for _ in range(count):
            self.user([38, 39])
        return self

    def noise(self, count: int) -> "Line":
        self.bits += [self.draw.bits(1) for _ in range(count)]
        return self

    def agreeing(self) -> Bits:
        """40 bits of no cell that agree."""
        while True:
            header = bits_of(self.draw.bits(HEADER_BITS), HEADER_BITS)
            if agrees(header):
                return header

    def seen_damage(self) -> List[int]:
        """Some bits of a header that leave a syndrome if they are wrong."""
        while True:
            damage = bits_of(self.draw.bits(HEADER_BITS) & self.draw.bits(HEADER_BITS), HEADER_BITS)
            if remainder(damage[:32] + [0] * 8) != damage[32:]:
                return [bit for bit in range(HEADER_BITS) if damage[bit]]

    def damaged(self, count: int, header: bool, payload: bool) -> "Line":
        """User cells with some of the header bits or payload bits wrong, or of both."""
        for _ in range(count):
            wrong: List[int] = []
            if header:
                wrong += self.seen_damage()
            if payload:
                wrong += [bit for bit in range(HEADER_BITS, CELL_BITS) if self.draw.bits(2) == 0]
            self.user(wrong)
        return self

    def octets(self) -> bytes:
        """All of it, the last octet filled with zeros."""
        return octets_of(self.bits + [0] * (-len(self.bits) % 8))
