"""The sending end, from its rules: which cell goes out, and at which phase."""

from typing import List, Tuple

from coding import PAYLOAD_OCTETS, code_cell
from generator import LAST_PHASE, next_phase
from idle_cells import IDLE_CELL
from refusal import BAD_PHASE, WRONG_LENGTH, Refused

IDLE, F3, USER = "idle", "F3", "user"

F3_PERIOD = 432
F3_HEADER = bytes.fromhex("00000009")
F3_PAYLOAD = bytes([0x6A]) * PAYLOAD_OCTETS


class Sender:
    """Cells number 0, 432, 864 and so on since the start are F3 cells; any other is a user cell where one waits, and else idle."""

    def __init__(self) -> None:
        self.phase = 1
        self.number = 0
        self.f3_payload = F3_PAYLOAD

    def start(self, phase: int) -> None:
        if not 0 < phase <= LAST_PHASE:
            raise Refused(BAD_PHASE)
        self.phase = phase
        self.number = 0

    def set_f3(self, payload: bytes) -> None:
        if len(payload) != PAYLOAD_OCTETS:
            raise Refused(WRONG_LENGTH)
        self.f3_payload = payload

    def send(self, waiting: List[bytes]) -> Tuple[bytes, str]:
        """The next cell's 53 octets and its kind. A user cell is the first of those that wait, and is taken from them."""
        if self.number % F3_PERIOD == 0:
            cell, kind = F3_HEADER + self.f3_payload, F3
        elif waiting:
            cell, kind = waiting.pop(0), USER
        else:
            cell, kind = IDLE_CELL, IDLE
        line = code_cell(cell, self.phase)
        self.phase = next_phase(self.phase)
        self.number += 1
        return line, kind
